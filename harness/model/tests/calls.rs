//! Document 01's calls on lent lists: number 6, refusals that leave everything, the life of a
//! status byte, and what is printed.

use model::{check_pass, deskcheck, run, submit, surface_index, Lent};
use sessions::layout::{ACTIONS, CLEARS, DISCARDS, SLOTS, STATUS_LEN};
use sessions::reply::{Action, Kind, Surface};
use sessions::text;

const A: Surface = Surface {
    texture: 0,
    mip: 0,
    layer: 0,
    slice: 0,
};

/// A needing action of the first mip and layer of texture 0.
const LOAD_A: Action = Action {
    kind: Kind::Needing,
    texture: 0,
    mips: (0, 1),
    layers: (0, 1),
    slice: 0,
};

/// One texture, one view; Clear with Discard, then Load with Store.
fn example() -> Vec<u8> {
    text::document_01()
}

#[test]
fn document_01s_example() {
    let bytes = example();
    assert_eq!(bytes.len(), 1120);
    assert_eq!(
        deskcheck(&bytes),
        "0 0 17 17 4 4 1 0 1\n1 0 17 17 4 4 1 1 0\n"
    );
    assert_eq!(deskcheck(&[]), "session 1\n");
    assert_eq!(deskcheck(&text::to_bytes("texture").unwrap()), "");
}

/// Fresh lists, changed.
fn lent(change: impl Fn(&mut Lent)) -> Lent {
    let mut lent = Lent::fresh();
    change(&mut lent);
    lent
}

/// The number that both calls answer; a refusal must leave everything lent.
fn both(bytes: &[u8], lent: &Lent) -> u32 {
    let mut checked = lent.clone();
    let number = check_pass(bytes, 0, &mut checked).refusal;
    let mut submitted = lent.clone();
    assert_eq!(submit(bytes, &mut submitted), number);
    if number != 0 {
        assert_eq!((&checked, &submitted), (lent, lent));
    }
    number
}

#[test]
fn a_short_buffer_is_6_before_all_else() {
    let short = [
        lent(|l| l.discard_room = DISCARDS - 1),
        lent(|l| l.action_room = ACTIONS - 1),
        lent(|l| l.clear_room = CLEARS - 1),
        lent(|l| l.status.truncate(STATUS_LEN - 1)),
    ];
    for lent in short {
        assert_eq!(both(&example(), &lent), 6);
        assert_eq!(both(&[], &lent), 6, "before number 1");
    }
    assert_eq!(both(&example(), &Lent::fresh()), 0);
}

#[test]
fn counts_records_and_status_bytes_are_6_after_4() {
    let action = |texture, mips, layers| Action {
        texture,
        mips,
        layers,
        ..LOAD_A
    };
    let wrong = [
        lent(|l| l.lists.discards = vec![A; DISCARDS + 1]),
        lent(|l| l.lists.actions = vec![LOAD_A; ACTIONS + 1]),
        lent(|l| l.clears = vec![A; CLEARS + 1]),
        lent(|l| l.lists.discards.push(Surface { texture: 1, ..A })),
        lent(|l| l.lists.discards.push(Surface { mip: 1, ..A })),
        lent(|l| l.lists.discards.push(Surface { slice: 1, ..A })),
        lent(|l| l.clears.push(Surface { layer: 1, ..A })),
        lent(|l| l.clears.push(Surface { slice: 1, ..A })),
        lent(|l| l.lists.actions.push(action(1, (0, 1), (0, 1)))),
        lent(|l| l.lists.actions.push(action(0, (0, 2), (0, 1)))),
        lent(|l| l.lists.actions.push(action(0, (0, 1), (0, 2)))),
        lent(|l| l.lists.actions.push(action(0, (0, 1), (0, 0)))),
        lent(|l| l.lists.actions.push(Action { slice: 1, ..LOAD_A })),
        lent(|l| l.status[0] = 4),
    ];
    let unreadable = text::to_bytes("texture\nview texture=1").unwrap();
    for lent in wrong {
        assert_eq!(both(&example(), &lent), 6);
        assert_eq!(both(&unreadable, &lent), 4, "4 comes before");
    }
    assert_eq!(
        both(&example(), &lent(|l| l.status[1] = 4)),
        0,
        "past the last surface"
    );
    assert_eq!(both(&example(), &lent(|l| l.status[0] = 3)), 0);
    assert_eq!(both(&example(), &lent(|l| l.clears = vec![A; CLEARS])), 0);
}

#[test]
fn a_pass_past_the_count_is_5() {
    let mut lent = Lent::fresh();
    let reply = check_pass(&example(), 2, &mut lent);
    assert_eq!((reply.refusal, reply.place), (5, Some(17)));
    assert_eq!(lent, Lent::fresh());
}

#[test]
fn refusal_49_comes_before_50() {
    let text = "texture layers=2\nview layer=0\nview layer=1\n\
                pass\n  colour view=0 load=load store=store\n  colour view=1 load=clear store=discard\n\
                pass\n  colour view=0 load=load store=store\n\
                pass\n  colour view=1 load=clear store=discard";
    let bytes = text::to_bytes(text).unwrap();
    let full = lent(|l| {
        let held = Surface { layer: 1, ..A };
        let action = Action {
            kind: Kind::Implicit,
            ..LOAD_A
        };
        l.lists.discards = vec![held; DISCARDS];
        l.lists.actions = vec![action; ACTIONS];
    });
    let number = |pass: usize| check_pass(&bytes, pass, &mut full.clone()).refusal;
    assert_eq!([number(0), number(1), number(2)], [49, 50, 49]);
}

#[test]
fn a_load_with_discard_keeps_the_list_at_64() {
    let bytes = text::to_bytes("texture\nview\npass\n  colour view=0 load=load store=discard");
    let mut full = lent(|l| l.lists.discards = vec![A; DISCARDS]);
    let reply = check_pass(&bytes.unwrap(), 0, &mut full);
    assert_eq!((reply.refusal, reply.clears.len()), (0, DISCARDS));
    assert_eq!(full.lists.discards, [A]);
    assert_eq!(full.lists.actions.len(), 1 + DISCARDS);
    assert_eq!(full.clears.len(), DISCARDS);
}

/// A volume of depth 5 and three mips, with 5, 2 and 1 slices; then a texture of two layers.
const VOLUME: &str = "texture dimension=3 layers=5 mips=3\ntexture layers=2\n\
                      view dimension=D3\nview dimension=D3 mip=1\nview texture=1 layer=1\n";

/// Its bytes with these passes.
fn volume(passes: &str) -> Vec<u8> {
    text::to_bytes(&format!("{VOLUME}{passes}")).unwrap()
}

#[test]
fn a_lent_slice_is_below_the_depth_of_each_of_its_mips() {
    let bytes = volume("pass\n  colour view=0 slice=0 load=clear");
    let surface = |mip, slice| Surface { mip, slice, ..A };
    let discard = |mip, slice| {
        both(
            &bytes,
            &lent(|l| l.lists.discards = vec![surface(mip, slice)]),
        )
    };
    let clear = |mip, slice| both(&bytes, &lent(|l| l.clears = vec![surface(mip, slice)]));
    for (mip, depth) in [(0, 5), (1, 2), (2, 1)] {
        assert_eq!([discard(mip, depth - 1), clear(mip, depth - 1)], [0, 0]);
        assert_eq!([discard(mip, depth), clear(mip, depth)], [6, 6]);
    }
    let action = |mips, slice| {
        let held = Action {
            mips,
            slice,
            ..LOAD_A
        };
        both(&bytes, &lent(|l| l.lists.actions = vec![held]))
    };
    assert_eq!([action((0, 1), 4), action((0, 1), 5)], [0, 6]);
    assert_eq!([action((0, 2), 1), action((0, 2), 2)], [0, 6]);
    assert_eq!([action((0, 3), 0), action((0, 3), 1)], [0, 6]);
    assert_eq!([action((2, 3), 0), action((2, 3), 1)], [0, 6]);
}

#[test]
fn at_most_64_clears_in_one_pass() {
    let slots: String = (0..8)
        .map(|k| format!("  colour view=0 slice={k} load=load store=discard\n"))
        .collect();
    let text = format!("texture dimension=3 layers=8\nview dimension=D3\npass\n{slots}");
    let held = (0..DISCARDS as u32).map(|k| Surface { slice: k % 8, ..A });
    let held: Vec<Surface> = held.collect();
    let mut full = lent(|l| l.lists.discards = held.clone());
    let reply = check_pass(&text::to_bytes(&text).unwrap(), 0, &mut full);
    assert_eq!(reply.clears.len(), DISCARDS);
    assert_eq!(full.lists.discards.len(), SLOTS);
}

#[test]
fn a_slice_is_discarded_and_loaded_by_itself() {
    let bytes = volume(
        "pass\n  colour view=0 slice=0 load=clear store=discard\n\
         pass\n  colour view=0 slice=1 load=load store=store\n\
         pass\n  colour view=0 slice=0 load=load store=store\n",
    );
    let rows = run(&bytes).unwrap();
    assert_eq!(rows[0].lists.discards, [A]);
    assert_eq!(
        (rows[1].reply.clears.len(), rows[1].lists.discards.len()),
        (0, 1)
    );
    assert_eq!(
        (&rows[2].reply.clears[..], rows[2].lists.discards.len()),
        (&[A][..], 0)
    );
    let slices: Vec<u32> = rows[2].lists.actions.iter().map(|a| a.slice).collect();
    assert_eq!(slices, [1, 0, 0], "each load's, then the clear's own");
    let status = rows[2].submitted.as_ref().unwrap();
    assert_eq!(status[..], [3, 3, 0, 0, 0, 0, 0, 0, 0, 0]);
}

#[test]
fn a_slice_of_another_mip_is_another_surface() {
    let bytes = volume(
        "pass ends=1\n  colour view=0 slice=0 load=clear store=store\n\
         pass\n  colour view=0 slice=0 load=clear store=discard\n\
         pass\n  colour view=1 slice=0 load=load store=store\n",
    );
    let rows = run(&bytes).unwrap();
    assert_eq!(rows[0].submitted.as_ref().unwrap()[..6], [1, 0, 0, 0, 0, 0]);
    assert_eq!(
        (rows[2].reply.clears.len(), rows[2].lists.discards.len()),
        (0, 1)
    );
    assert_eq!(rows[2].submitted.as_ref().unwrap()[..6], [0, 0, 0, 0, 0, 3]);
}

#[test]
fn a_lent_action_of_several_mips_fills_its_slice_in_each() {
    let held = Action {
        mips: (0, 2),
        slice: 1,
        ..LOAD_A
    };
    let discard = Surface {
        mip: 1,
        slice: 1,
        ..A
    };
    let mut lent = lent(|l| {
        l.lists.actions = vec![held];
        l.lists.discards = vec![discard];
    });
    assert_eq!(submit(&volume(""), &mut lent), 0);
    assert_eq!(lent.status[..8], [0, 3, 0, 0, 0, 0, 2, 0]);
}

#[test]
fn the_index_of_a_surface_is_the_place_of_its_byte() {
    let bytes = volume("");
    let index = |texture, mip, layer, slice| {
        let surface = Surface {
            texture,
            mip,
            layer,
            slice,
        };
        surface_index(&bytes, &surface)
    };
    assert_eq!([index(0, 0, 0, 0), index(0, 0, 0, 4)], [Ok(0), Ok(4)]);
    assert_eq!([index(0, 1, 0, 0), index(0, 1, 0, 1)], [Ok(5), Ok(6)]);
    assert_eq!([index(0, 2, 0, 0), index(1, 0, 1, 0)], [Ok(7), Ok(9)]);
    let outside = [
        (0, 0, 0, 5),
        (0, 1, 0, 2),
        (0, 3, 0, 0),
        (0, 0, 1, 0),
        (1, 0, 0, 1),
        (2, 0, 0, 0),
    ];
    for (texture, mip, layer, slice) in outside {
        assert_eq!(index(texture, mip, layer, slice), Err(6));
    }
    assert_eq!(surface_index(&[], &A), Err(1));
}

#[test]
fn the_life_of_a_status_byte() {
    let text = "texture\nview\n\
                pass ends=1\n  colour view=0 load=load store=discard\n\
                pass ends=1\n  colour view=0 load=load store=store\n\
                pass ends=1\n  colour view=0 load=load store=store\n\
                pass ends=1\n  colour view=0 load=clear store=discard\n\
                pass ends=1\n  colour view=0 load=clear store=store\n\
                pass ends=1\n";
    let answer = run(&text::to_bytes(text).unwrap()).unwrap();
    let status: Vec<u8> = answer
        .iter()
        .flat_map(|row| row.submitted.clone())
        .flatten()
        .collect();
    assert_eq!(status, [2, 3, 1, 0, 1, 1]);
}

#[test]
fn clears_stay_through_refusals_and_submissions() {
    let bytes = example();
    let mut lent = Lent::fresh();
    check_pass(&bytes, 0, &mut lent);
    assert_eq!(lent.lists.discards, [A]);
    check_pass(&bytes, 1, &mut lent);
    assert_eq!(
        (lent.clears.as_slice(), lent.lists.discards.len()),
        (&[A][..], 0)
    );
    check_pass(&bytes, 9, &mut lent);
    submit(&bytes, &mut lent);
    assert_eq!(lent.clears, [A]);
    assert!(lent.lists.actions.is_empty());
    check_pass(&bytes, 0, &mut lent);
    assert!(
        lent.clears.is_empty(),
        "an accepted pass replaces the clears"
    );
}
