//! The examples through the proved library: whole sessions, and every number.

use checks::examples::{numbers, of_number, sessions};
use checks::whole;
use desk::layout::DISCARDS;
use desk::{check, check_pass, submit_buffer, surface_index, Library, Lists, Surface};
use sessions::text;

#[test]
fn whole_sessions_are_the_models_lines() {
    let examples = sessions();
    assert!(examples.len() > 40);
    for (name, bytes) in examples {
        assert_eq!(
            whole::lines(&Library, &bytes),
            model::deskcheck(&bytes),
            "{name}"
        );
        whole::hold(&Library, &bytes).unwrap_or_else(|wrong| panic!("{name}: {wrong}"));
    }
}

#[test]
fn document_01s_two_lines() {
    let example = sessions().into_iter().find(|(name, _)| name == "first");
    let lines = "0 0 17 17 4 4 1 0 1\n1 0 17 17 4 4 1 1 0\n";
    assert_eq!(whole::lines(&Library, &example.unwrap().1), lines);
}

#[test]
fn each_number_is_given_by_its_example() {
    for number in numbers().into_iter().filter(|n| *n != 6) {
        let bytes = of_number(number).unwrap();
        let given = match check(&bytes) {
            Err(refusal) => refusal,
            Ok(rows) => rows.last().unwrap()[1],
        };
        assert_eq!(given, number);
    }
}

#[test]
fn number_6_is_given_by_a_short_buffer_and_by_a_count() {
    let bytes = of_number(5).unwrap();
    let mut short = Lists::fresh();
    short.clears.pop();
    let mut count = Lists::fresh();
    count.discards[0] = DISCARDS as u8 + 1;
    for lists in [short, count] {
        let mut lent = lists.clone();
        assert_eq!(check_pass(&bytes, 0, &mut lent).number, 6);
        assert_eq!(submit_buffer(&bytes, &mut lent), 6);
        assert_eq!(lent, lists);
    }
}

#[test]
fn cleared_lists_are_as_good_as_fresh_ones() {
    let (_, bytes) = sessions().into_iter().find(|(n, _)| n == "first").unwrap();
    let mut lists = Lists::fresh();
    let first = check_pass(&bytes, 0, &mut lists).words();
    check_pass(&bytes, 1, &mut lists);
    submit_buffer(&bytes, &mut lists);
    lists.clear();
    assert_eq!(lists.counts(), [0; 3]);
    assert_eq!(check_pass(&bytes, 0, &mut lists).words(), first);
}

#[test]
fn a_3d_texture_has_a_status_byte_a_slice() {
    let text = "texture dimension=3 layers=5 mips=3\ntexture\n\
                view dimension=D3\nview dimension=D3 mip=1\nview texture=1\n\
                pass ends=1\n  colour view=0 slice=4 load=load store=store\n  colour view=2 load=clear\n\
                pass\n  colour view=1 slice=1 load=clear store=store\n\
                pass\n  colour view=0 slice=4 load=clear store=discard";
    let bytes = text::to_bytes(text).unwrap();
    let mut lists = Lists::fresh();
    assert_eq!(check_pass(&bytes, 0, &mut lists).number, 0);
    assert_eq!(submit_buffer(&bytes, &mut lists), 0);
    assert_eq!(lists.status[..10], [0, 0, 0, 0, 3, 0, 0, 0, 1, 0]);
    assert_eq!(check_pass(&bytes, 1, &mut lists).number, 0);
    assert_eq!(check_pass(&bytes, 2, &mut lists).number, 0);
    let discarded = lists.discards()[0];
    assert_eq!((discarded.layer, discarded.slice), (0, 4));
    assert_eq!(surface_index(&bytes, &discarded), Ok(4));
    assert_eq!(submit_buffer(&bytes, &mut lists), 0);
    assert_eq!(lists.status[..10], [0, 0, 0, 0, 0, 0, 1, 0, 1, 0]);
}

#[test]
fn a_discarded_pair_has_an_entry_and_an_empty_status_byte_for_each_layer() {
    let text = "session flags=multiview max-views=2\ntexture layers=3\nview dimension=D2Array layer=1 layers=2\n\
                pass\n  colour view=0 load=clear\npass\n  colour view=0 load=clear store=discard\n\
                pass\n  colour view=0 load=load";
    let bytes = text::to_bytes(text).unwrap();
    let mut lists = Lists::fresh();
    for (pass, listed, status) in [
        (0, vec![], [0, 1, 1]),
        (1, vec![1, 2], [0; 3]),
        (2, vec![], [0, 3, 3]),
    ] {
        assert_eq!(check_pass(&bytes, pass, &mut lists).number, 0);
        let layers: Vec<u32> = lists.discards().iter().map(|s| s.layer).collect();
        assert_eq!(layers, listed);
        assert_eq!(submit_buffer(&bytes, &mut lists), 0);
        assert_eq!(lists.status[..3], status);
    }
}

#[test]
fn the_index_of_a_surface() {
    let bytes =
        text::to_bytes("texture layers=2 mips=2\ntexture dimension=3 layers=5 mips=3").unwrap();
    let index = |texture, mip, layer, slice| {
        let surface = Surface {
            texture,
            mip,
            layer,
            slice,
        };
        surface_index(&bytes, &surface)
    };
    assert_eq!([index(0, 0, 1, 0), index(0, 1, 1, 0)], [Ok(1), Ok(3)]);
    assert_eq!([index(1, 0, 0, 0), index(1, 0, 0, 4)], [Ok(4), Ok(8)]);
    assert_eq!([index(1, 1, 0, 1), index(1, 2, 0, 0)], [Ok(10), Ok(11)]);
    assert_eq!([index(0, 0, 0, 1), index(1, 1, 0, 2)], [Err(6), Err(6)]);
    assert_eq!([index(1, 0, 1, 0), index(2, 0, 0, 0)], [Err(6), Err(6)]);
    let refused = of_number(4).unwrap();
    assert_eq!(surface_index(&refused, &Surface::default()), Err(4));
}
