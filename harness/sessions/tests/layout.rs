//! The sizes of `layout` are document 01's numbers, and fields stand where document 01 puts them. These
//! are the only numbers of the kind outside `layout`.

use sessions::layout::*;
use sessions::rows::*;
use sessions::text;

#[test]
fn sizes_are_document_01s() {
    assert_eq!((HEADER_LEN, TEXTURE_LEN, VIEW_LEN), (44, 32, 36));
    assert_eq!((PASS_LEN, SLOT_LEN, SLOTS), (504, 56, 8));
    assert_eq!((PASS_FRONT_LEN, CHANNEL_LEN), (56, 20));
    assert_eq!((MAX_TEXTURES, MAX_VIEWS, MAX_PASSES), (64, 256, 100));
    assert_eq!((MAX_SURFACES, MAX_MULTIVIEW, ALL_FLAGS), (4096, 32, 15));
    assert_eq!((MAX_SIZE, MAX_LAYERS, MAX_MIPS), (16384, 32, 15));
    assert_eq!((SAMPLES, ALL_USAGES), ([1, 2, 4, 8, 16], 63));
    assert_eq!(LONGEST, 61708);
    assert_eq!(MAX_COLOUR_BYTES, 128);
}

#[test]
fn the_header_has_its_fields_in_document_01s_order() {
    let counts = [TEXTURE_COUNT_AT, VIEW_COUNT_AT, PASS_COUNT_AT];
    let offsets = [TEXTURE_OFFSET_AT, VIEW_OFFSET_AT, PASS_OFFSET_AT];
    assert_eq!((counts, offsets), ([0, 8, 16], [4, 12, 20]));
    assert_eq!((MAX_COLOURS_AT, MAX_VIEWS_AT, FLAGS_AT), (24, 28, 32));
    assert_eq!((COLOUR_BYTES_AT, TOTAL_AT, PASS_ENDS_AT), (36, 40, 8));
    assert_eq!((DEPTH_AT, SLOT_CLEAR_AT), (16, 24));
}

#[test]
fn lent_lengths_are_document_01s() {
    assert_eq!((DISCARDS, ACTIONS, CLEARS), (64, 512, 80));
    assert_eq!((SURFACE_LEN, SURFACE_SLICE_AT), (16, 12));
    assert_eq!((ACTION_LEN, ACTION_KIND_AT, ACTION_SLICE_AT), (28, 20, 24));
    assert_eq!((DISCARDS_LEN, ACTIONS_LEN, CLEARS_LEN), (1028, 14340, 1284));
    assert_eq!((STATUS_LEN, ROW_LEN, ROWS_LEN), (4096, 36, 3600));
    assert_eq!((MOST_ATTACHMENTS, REPLY_LEN), (17, 1000));
    assert_eq!((ATTACHMENT_LEN, COLOR_LEN, INDEX_LEN), (56, 32, 8));
}

#[test]
fn rows_have_as_many_fields_as_their_length_says() {
    let fields = |bytes: usize| bytes / FIELD_LEN;
    assert_eq!(Header::default().fields().len(), fields(HEADER_LEN));
    assert_eq!(PLAIN_TEXTURE.fields().len(), fields(TEXTURE_LEN));
    assert_eq!(PLAIN_VIEW.fields().len(), fields(VIEW_LEN));
    assert_eq!(EMPTY_SLOT.fields().len(), fields(SLOT_LEN));
    assert_eq!(EMPTY_PASS.fields().len(), fields(PASS_LEN));
}

#[test]
fn fields_stand_where_document_01_puts_them() {
    let text = "session flags=strict+read-only-depth-stencil max-colours=4 max-views=2 \
                colour-bytes=99\n\
                texture format=depth32float-stencil8 width=300 usage=render+binding\n\
                view dimension=D2Array layers=1 resolvable=0\n\
                pass mask=5 ends=1\n\
                depth-stencil view=0\n\
                depth load=clear store=discard clear=0.5\n\
                stencil read-only=1\n\
                colour\n\
                colour view=0 slice=7 resolve=0 load=dont-care store=discard clear=1,0,0,-0.0\n";
    let bytes = text::to_bytes(text).unwrap();
    let at = |offset: usize| u32::from_le_bytes(bytes[offset..offset + 4].try_into().unwrap());
    let header = [1, 44, 1, 76, 1, 112, 4, 2, 9, 99, 616];
    assert_eq!(std::array::from_fn::<u32, 11, _>(|i| at(4 * i)), header);
    assert_eq!(
        std::array::from_fn::<u32, 8, _>(|i| at(44 + 4 * i)),
        [25, 2, 300, 4, 1, 1, 1, 20]
    );
    assert_eq!(
        std::array::from_fn::<u32, 9, _>(|i| at(76 + 4 * i)),
        [0, 3, 0, 1, 0, 1, 16, 0, 25]
    );
    let front = [2, 5, 1, 0, 1, 1, 0, 1, 0.5f32.to_bits(), 3, 2, 1, 0, 0];
    assert_eq!(
        std::array::from_fn::<u32, 14, _>(|i| at(112 + 4 * i)),
        front
    );
    assert_eq!(at(168), NONE, "slot 0 is empty");
    assert_eq!(
        std::array::from_fn::<u32, 6, _>(|i| at(224 + 4 * i)),
        [0, 1, 7, 0, 2, 1]
    );
    assert_eq!(bytes[248..256], 1.0f64.to_le_bytes());
    assert_eq!(bytes[272..280], (-0.0f64).to_le_bytes());
}
