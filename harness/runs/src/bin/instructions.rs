//! `instructions` lists the calls whose instructions are counted, a line each: the C function, then the call's name.
//! `instructions NAME` prepares the buffers and makes that one call of its function. tools/instructions.sh counts what it takes.

use std::hint::black_box;
use std::process::ExitCode;

use desk::{Lists, ROWS_LEN};
use interface::put_records;
use runs::timed::*;
use runs::{arguments, end};
use sessions::layout::*;
use sessions::Session;

/// A call of a C function.
struct Call {
    function: &'static str,
    name: &'static str,
    /// Makes it, on buffers of its own.
    make: fn(),
}

/// A pass of the session on lists of so many actions.
fn pass(session: &Session, actions: u32) {
    let file = session.to_bytes();
    let mut lists = with_actions(actions);
    assert_eq!(desk::check_pass(black_box(&file), 0, &mut lists).number, 0);
}

/// A pass over two views of the most layers, with all their layers discarded.
fn loaded_layers() {
    let file = layers_lost(MAX_LAYERS).to_bytes();
    let mut lists = Lists::fresh();
    let layers = |texture: u32| (0..MAX_LAYERS).map(move |layer| [texture, 0, layer, 0]);
    put_records(&mut lists.discards, (0..2).flat_map(layers));
    let reply = desk::check_pass(black_box(&file), 1, &mut lists);
    assert_eq!((reply.number, reply.clears), (0, DISCARDS as u32));
}

/// The whole session.
fn whole(session: &Session) {
    let file = session.to_bytes();
    let mut rows = vec![0; ROWS_LEN];
    assert_eq!(desk::session(black_box(&file), &mut rows), 0);
}

/// A submission of so many actions.
fn submission(actions: u32) {
    let file = by_passes(1).to_bytes();
    let mut lists = with_actions(actions);
    assert_eq!(desk::submit_buffer(black_box(&file), &mut lists), 0);
}

/// Lists of so many needing actions, each of the first texture's one surface.
fn with_actions(count: u32) -> Lists {
    let mut lists = Lists::fresh();
    let numbers = [0, 0, 1, 0, 1, 1, 0u32];
    let record: Vec<u8> = numbers.iter().flat_map(|n| n.to_le_bytes()).collect();
    lists.actions[..COUNT_LEN].copy_from_slice(&count.to_le_bytes());
    for place in lists.actions[COUNT_LEN..]
        .chunks_exact_mut(ACTION_LEN)
        .take(count as usize)
    {
        place.copy_from_slice(&record);
    }
    lists
}

/// Every call that is counted.
const CALLS: [Call; 15] = [
    Call {
        function: "deskcheck_pass",
        name: "one-slot",
        make: || pass(&by_passes(1), 0),
    },
    Call {
        function: "deskcheck_pass",
        name: "depth-stencil-and-one",
        make: || pass(&depth_and_colour(), 0),
    },
    Call {
        function: "deskcheck_pass",
        name: "seventeen-attachments",
        make: || pass(&wide(1), 0),
    },
    Call {
        function: "deskcheck_pass",
        name: "longest-session",
        make: || pass(&longest(), 0),
    },
    Call {
        function: "deskcheck_pass",
        name: "490-actions-lent",
        make: || pass(&by_passes(1), 490),
    },
    Call {
        function: "deskcheck_pass",
        name: "discards-two-of-32-layers",
        make: || pass(&layers_lost(MAX_LAYERS), 0),
    },
    Call {
        function: "deskcheck_pass",
        name: "loads-two-of-32-layers",
        make: loaded_layers,
    },
    Call {
        function: "deskcheck_session",
        name: "100-of-one-slot",
        make: || whole(&by_passes(MAX_PASSES)),
    },
    Call {
        function: "deskcheck_session",
        name: "100-of-seventeen",
        make: || whole(&wide(MAX_PASSES)),
    },
    Call {
        function: "deskcheck_session",
        name: "loads-beside-64-discards",
        make: || whole(&loads_beside_discards()),
    },
    Call {
        function: "deskcheck_session",
        name: "loads-among-64-discards",
        make: || whole(&loads_among_discards()),
    },
    Call {
        function: "deskcheck_session",
        name: "96-of-two-of-32-layers",
        make: || whole(&by_layers(MAX_LAYERS)),
    },
    Call {
        function: "deskcheck_session_refusal",
        name: "longest-session-read",
        make: || assert_eq!(desk::session_refusal(black_box(&longest().to_bytes())), 0),
    },
    Call {
        function: "deskcheck_submit",
        name: "512-actions",
        make: || submission(512),
    },
    Call {
        function: "deskcheck_submit",
        name: "no-actions",
        make: || submission(0),
    },
];

/// Lists the calls, or makes the one that is named.
fn run(arguments: &[String]) -> Result<(), String> {
    let [name] = arguments else {
        CALLS
            .iter()
            .for_each(|call| println!("{} {}", call.function, call.name));
        return Ok(());
    };
    let named = CALLS.iter().find(|call| call.name == name);
    (named.ok_or_else(|| format!("no call is named {name}"))?.make)();
    Ok(())
}

fn main() -> ExitCode {
    end(run(&arguments()))
}
