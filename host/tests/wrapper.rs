//! The safe wrapper gives the library's numbers their right forms.

use kribbelsteen::*;
use std::f64::consts::SQRT_2;

const SAMPLE: &[u8] = b"void plastic wall 0 0 5 .5 .5 .5 0 0\n\
    void plastic wall 0 0 5 .2 .2 .2 0 0\n\
    wall mixfunc lamp 4 trim void c d 0 4 0 0 0 1\n\
    void alias trim wall\n\
    lamp illum panel 1 trim 0 3 1 2 3\n";

#[test]
fn a_scene_shows_its_primitives() {
    let (mut records, mut reals, mut pairs) = ([9; RECORD * 6], [9.0; 20], [9; PAIR * 6]);
    let scene = Scene::read(Mode::New, SAMPLE, &mut records, &mut reals, &mut pairs).expect("well-formed");
    assert_eq!(scene.counts(), Counts { primitives: 5, reals: 17 });
    let shown: Vec<_> = scene
        .primitives()
        .map(|p| (p.number(), p.kind().word(), p.name().bytes, p.modifier(), p.target(), p.next_of_name()))
        .collect();
    assert_eq!(
        shown,
        [
            (1, "plastic", &b"wall"[..], None, None, Some(2)),
            (2, "plastic", b"wall", None, None, None),
            (3, "mixfunc", b"lamp", Some(2), None, None),
            (4, "plastic", b"trim", None, Some(2), None),
            (5, "illum", b"panel", Some(3), None, None),
        ]
    );
    assert_eq!(scene.primitive(4).expect("there are five").reals(), [0.2, 0.2, 0.2, 0.0, 0.0]);
    let panel = scene.primitive(5).expect("there are five");
    assert_eq!(panel.strings().map(|word| word.bytes).collect::<Vec<_>>(), [b"trim"]);
    assert_eq!(panel.reals(), [1.0, 2.0, 3.0]);
    assert_eq!(scene.primitives().map(|p| p.line()).collect::<Vec<_>>(), [1, 2, 3, 4, 5]);
    assert!(scene.primitive(0).is_none() && scene.primitive(6).is_none());
}

#[test]
fn a_surface_hides_no_paint() {
    let text =
        b"void plastic wall 0 0 5 .5 .5 .5 0 0\nvoid sphere wall 0 0 4 0 0 0 1\nwall sphere knob 0 0 4 0 0 0 1\n";
    let (mut records, mut reals, mut pairs) = ([0; RECORD * 3], [0.0; 13], [0; PAIR * 3]);
    let scene = Scene::read(Mode::New, text, &mut records, &mut reals, &mut pairs).expect("well-formed");
    let links: Vec<_> = scene.primitives().map(|p| (p.modifier(), p.next_of_name())).collect();
    assert_eq!(links, [(None, None), (None, None), (Some(1), None)]);
    assert_eq!(scene.finish(3), Ok(Finish { material: Some(1), links: 1 }));
}

#[test]
fn a_name_stands_on_a_line() {
    let text = b"\n# a lamp\nvoid light\n\nlamp 0 0 3 1 1 1 void alias\r\nbulb lamp\n";
    let (mut records, mut reals, mut pairs) = ([9; RECORD * 2], [9.0; 3], [9; PAIR * 2]);
    let scene = Scene::read(Mode::New, text, &mut records, &mut reals, &mut pairs).expect("well-formed");
    assert_eq!(scene.primitives().map(|p| p.line()).collect::<Vec<_>>(), [5, 6]);
}

#[test]
fn questions_are_answered_or_refused() {
    let (mut records, mut reals, mut pairs) = ([0; RECORD * 5], [0.0; 17], [0; PAIR * 5]);
    let scene = Scene::read(Mode::New, SAMPLE, &mut records, &mut reals, &mut pairs).expect("well-formed");
    assert_eq!(scene.name(3), Ok(&b"lamp"[..]));
    assert_eq!(scene.name(6), Err(Question::NoSuchPrimitive));
    assert_eq!(scene.finish(5), Ok(Finish { material: Some(2), links: 2 }));
    assert_eq!(scene.finish(1), Ok(Finish { material: None, links: 0 }));
    assert_eq!(scene.finish_within(5, 1), Err(Question::UsedUp { links: 1 }));
    assert_eq!(finish(&records, 6, 1, 9), Err(Question::BadTable));
    assert_eq!(name(b"", &records, 5, 1), Err(Question::BadTable));
    assert_eq!(Question::UsedUp { links: 1 }.to_string(), "the allowance of 1 links is used up (reason 19)");
}

#[test]
fn a_refusal_says_reason_and_place() {
    let (mut records, mut reals, mut pairs) = ([9; 25], [9.0; 9], [9; 5]);
    let refusal = read(Mode::New, b"void sphere s 0 0 4 0 0 0 0", &mut records, &mut reals, &mut pairs)
        .expect_err("the radius is 0");
    assert_eq!(refusal, Refusal { reason: Reason::HouseRule, place: 26 });
    assert_eq!((records, reals, pairs), ([0; 25], [0.0; 9], [0; 5]));
    let error: Box<dyn std::error::Error> = refusal.into();
    assert_eq!(error.to_string(), "real breaks a house rule (reason 16), at byte 26");
}

#[test]
fn a_scene_is_read_with_an_index() {
    let (mut records, mut reals, mut pairs) = ([9; RECORD * 6], [9.0; 20], [9; PAIR * 6]);
    let mut index = [9; INDEX + 1];
    let found = read_indexed(Mode::New, SAMPLE, &mut records, &mut reals, &mut pairs, &mut index).expect("well-formed");
    // Five names are put in, and two modifiers and a target are looked up, sides uncounted; no two names have one hash
    assert_eq!(found, Indexed { counts: Counts { primitives: 5, reals: 17 }, looked: 8 });
    let mut held: Vec<_> = index.iter().filter(|&&number| number != 0).collect();
    held.sort();
    assert_eq!((held, index[INDEX]), (vec![&2, &3, &4, &5], 0));
    let scene =
        Scene::read_indexed(Mode::New, SAMPLE, &mut records, &mut reals, &mut pairs, &mut index).expect("well-formed");
    assert_eq!(scene.finish(5), Ok(Finish { material: Some(2), links: 2 }));
    let (mut plain, mut doubles, mut sides) = ([7; RECORD * 6], [7.0; 20], [7; PAIR * 6]);
    assert_eq!(read(Mode::New, SAMPLE, &mut plain, &mut doubles, &mut sides), Ok(found.counts));
    assert_eq!((plain, doubles, sides), (records, reals, pairs));
}

#[test]
fn a_short_index_is_refused() {
    let (mut records, mut reals, mut pairs, mut index) = ([9; 25], [9.0; 9], [9; 4], [9; INDEX]);
    let mut refusal = |text: &[u8], entries| {
        let index = &mut index[..entries];
        let refusal = read_indexed(Mode::New, text, &mut records, &mut reals, &mut pairs, index).expect_err("refused");
        assert!(records == [0; 25] && reals == [0.0; 9] && pairs == [0; 4] && index.iter().all(|&entry| entry == 0));
        (records, reals, pairs) = ([9; 25], [9.0; 9], [9; 4]);
        index.fill(9);
        refusal
    };
    let short = Refusal { reason: Reason::IndexTooSmall, place: 0 };
    assert_eq!(refusal(b"!", INDEX - 1), short);
    assert_eq!(refusal(b"", 0), short);
    assert_eq!(refusal(&[b'#'; MOST_BYTES], INDEX - 1), short);
    assert_eq!(refusal(&[b'#'; MOST_BYTES + 1], 0), Refusal { reason: Reason::TextTooLong, place: 0 });
    assert_eq!(refusal(b" !", INDEX), Refusal { reason: Reason::Command, place: 1 });
    assert_eq!(short.to_string(), "index under 2,048 entries (reason 24), at byte 0");
    let refused = Scene::read_indexed(Mode::New, SAMPLE, &mut records, &mut reals, &mut pairs[1..], &mut index[1..]);
    assert_eq!(refused.expect_err("an entry of the index is missing, and one of the pairs"), short);
    let refused = Scene::read_indexed(Mode::New, SAMPLE, &mut records, &mut reals, &mut pairs[1..], &mut index);
    let short = refused.expect_err("an entry of the pairs is missing");
    assert_eq!(short, Refusal { reason: Reason::PairsTooSmall, place: 0 });
    assert_eq!(short.to_string(), "pair table under two entries per record (reason 27), at byte 0");
}

/// A screen of two woods, one of them chosen by a mixture that stands below; and the same mixture by another name.
const MIXED: &[u8] = b"void plastic oak 0 0 5 .5 .4 .2 0 0\n\
    oak mixfunc inlay 4 void grain v f.cal 0 0\n\
    void alias border inlay\n\
    border polygon screen 0 0 9 0 0 0 1 0 0 0 1 0\n\
    void mixfunc grain 4 ash oak v f.cal 0 0\n\
    void plastic ash 0 0 5 .7 .6 .5 0 0\n";

#[test]
fn a_scene_shows_materials() {
    let (mut records, mut reals, mut pairs, mut list) = ([9; RECORD * 6], [9.0; 19], [9; PAIR * 6], [9; 4]);
    let scene = Scene::read(Mode::New, MIXED, &mut records, &mut reals, &mut pairs).expect("well-formed");
    let inlay = Pair { foreground: None, background: Some(5) };
    assert_eq!([2, 3].map(|number| scene.pair(number)), [Some(inlay); 2]);
    assert_eq!(scene.pair(5), Some(Pair { foreground: Some(6), background: Some(1) }));
    assert_eq!([0, 1, 4, 6, 7].map(|number| scene.pair(number)), [None; 5]);
    assert_eq!(scene.shown(4, &mut list), Ok(&[1, 6][..]));
    assert_eq!(list, [1, 6, 0, 0]);
    assert_eq!(scene.shown(1, &mut list[..0]), Ok(&[][..]));
    assert_eq!(scene.shown(7, &mut list), Err(Question::NoSuchPrimitive));
    assert_eq!(scene.shown(4, &mut list[..1]), Err(Question::ListTooShort));
    assert_eq!(Question::ListTooShort.to_string(), "the list is too short (reason 23)");
    assert_eq!(Question::ListTooShort.number(), 23);
    assert_eq!(shown(&records, &pairs, 6, 2, &mut list), Ok(&[1, 6][..]));
    assert_eq!(shown(&records, &pairs[..11], 6, 2, &mut list), Err(Question::BadTable));
    assert_eq!(list, [0; 4]);
    let ((mut a, mut x), (mut b, mut y)) = (([9; RECORD * 6], [9.0; 19]), ([9; RECORD * 6], [9.0; 19]));
    let saves = Saves::read(Mode::New, MIXED, &mut a, &mut x, MIXED, &mut b, &mut y).expect("well-formed");
    assert_eq!((saves.left.pair(2), saves.left.shown(4, &mut list)), (None, Err(Question::BadTable)));
}

#[test]
fn order_mattered_or_did_not() {
    let (mut records, mut reals, mut pairs) = ([9; RECORD * 5], [9.0; 17], [9; PAIR * 5]);
    let scene = Scene::read(Mode::New, SAMPLE, &mut records, &mut reals, &mut pairs).expect("well-formed");
    let held = |by, giver, name: &'static [u8]| Ok(Order::Held { by, giver, name });
    assert_eq!(scene.mattered(1, 2), held(2, 1, b"wall"));
    assert_eq!([scene.mattered(1, 5), scene.mattered(5, 1)], [held(3, 1, b"wall"); 2]);
    assert_eq!(scene.mattered(3, 5), held(5, 3, b"lamp"));
    // A side of the lamp is the trim, which holds nothing
    assert_eq!([scene.mattered(3, 4), scene.mattered(5, 4)], [Ok(Order::Free); 2]);
    for (first, second) in [(0, 1), (1, 0), (6, 5), (5, usize::MAX), (2, 2)] {
        assert_eq!(scene.mattered(first, second), Err(Question::NoSuchPrimitive), "{first}, {second}");
    }
    let refusal = Question::NoSuchPrimitive.to_string();
    assert_eq!(refusal, "no primitive has this number, or it is given twice (reason 17)");
    assert_eq!(mattered(SAMPLE, &records, 6, 0, 0), Err(Question::BadTable));
    assert_eq!(mattered(&SAMPLE[..20], &records, 1, 1, 1), Err(Question::NoSuchPrimitive));
    assert_eq!(mattered(SAMPLE, &records, 3, 3, 2), held(3, 2, b"wall"));
    assert_eq!(mattered(&SAMPLE[..90], &records, 3, 3, 2), Err(Question::BadTable));
    records[RECORD * 4 + 1] = 5;
    assert_eq!(mattered(SAMPLE, &records, 5, 1, 2), Err(Question::BadTable));
    assert_eq!(mattered(SAMPLE, &records, 4, 1, 2), held(2, 1, b"wall"));
    let ((mut a, mut x), (mut b, mut y)) = (([9; RECORD * 5], [9.0; 17]), ([9; RECORD * 4], [9.0; 17]));
    let saves = Saves::read(Mode::New, SAMPLE, &mut a, &mut x, UNSORTED, &mut b, &mut y).expect("both are well-formed");
    assert_eq!((saves.left.mattered(1, 5), saves.right.mattered(2, 4)), (held(3, 1, b"wall"), held(4, 4, b"wall")));
}

#[test]
fn a_side_is_missing_or_leads_in_a_loop() {
    let (mut records, mut reals, mut pairs) = ([9; RECORD * 3], [9.0; 5], [9; PAIR * 3]);
    let mut refusal = |text: &[u8]| {
        let refusal = read(Mode::New, text, &mut records, &mut reals, &mut pairs).expect_err("refused");
        assert_eq!((records, reals, pairs), ([0; RECORD * 3], [0.0; 5], [0; PAIR * 3]));
        refusal
    };
    let missing = refusal(b"void mixfunc m 4 m oak v f 0 0");
    assert_eq!(missing, Refusal { reason: Reason::SideNotDefined, place: 19 });
    assert_eq!(missing.to_string(), "side of a mixture not defined (reason 25), at byte 19");
    let looped = refusal(b"void mixfunc m 4 void oak v f 0 0\nm plastic oak 0 0 5 1 1 1 0 0\n");
    assert_eq!(looped, Refusal { reason: Reason::Loop, place: 13 });
    assert_eq!(looped.to_string(), "modifiers and sides lead in a loop (reason 26), at byte 13");
    let text = b"void mixfunc m 4 m void v f 0 0";
    let refused = Unwritten::Refused(Refusal { reason: Reason::Loop, place: 13 });
    assert_eq!(write(Mode::New, text, &[0; RECORD], &[], &mut [9; 40]), Err(refused));
    let ((mut a, mut x), (mut b, mut y)) = (([9; RECORD], [9.0; 1]), ([9; RECORD], [9.0; 1]));
    let refused = read_both(Mode::New, b"", &mut a, &mut x, text, &mut b, &mut y);
    let refusal = Refusal { reason: Reason::Loop, place: 13 };
    assert_eq!(refused, Err(SaveRefusal { side: Side::Right, refusal }));
}

#[test]
fn the_archive_reading_accepts_antimatter() {
    let text = b"void antimatter hole 1 void 0 0\nvoid alias slot hole\n";
    let (mut records, mut reals, mut pairs) = ([9; RECORD * 2], [9.0; 1], [9; PAIR * 2]);
    let refusal = read(Mode::New, text, &mut records, &mut reals, &mut pairs).expect_err("a new scene has none");
    assert_eq!(refusal, Refusal { reason: Reason::RetiredType, place: 5 });
    assert_eq!(refusal.to_string(), "antimatter in a new scene (reason 28), at byte 5");
    let scene =
        Scene::read(Mode::Archive, text, &mut records, &mut reals, &mut pairs).expect("an old scene may have it");
    assert_eq!(scene.mode(), Mode::Archive);
    assert!(scene.primitives().all(|p| p.kind() == Type::Antimatter));
    let mut out = [0; 64];
    assert_eq!(scene.write(&mut out), Ok(&b"void antimatter hole\n1 void\n0\n0\nvoid alias slot hole\n"[..]));
    assert_eq!(write(Mode::New, text, &records, &reals[..0], &mut out), Err(Unwritten::Refused(refusal)));
    let ((mut a, mut x), (mut b, mut y)) = (([9; RECORD], [9.0; 3]), ([9; RECORD * 2], [9.0; 1]));
    let lamp = b"void light lamp 0 0 3 1 1 1";
    let refused = read_both(Mode::New, lamp, &mut a, &mut x, text, &mut b, &mut y);
    assert_eq!(refused, Err(SaveRefusal { side: Side::Right, refusal }));
    let saves = Saves::read(Mode::Archive, lamp, &mut a, &mut x, text, &mut b, &mut y).expect("both are read alike");
    assert_eq!(saves.lines().count(), 3);
}

#[test]
fn numbers_and_reasons_agree() {
    for number in (1..=16).filter(|number| *number != 11).chain(24..=28) {
        assert_eq!(Reason::from_number(number).map(Reason::number), Some(number));
    }
    assert_eq!([0, 11, 17, 23, 29, 30, 31, 32, 33, 34].map(Reason::from_number), [None; 10]);
    for number in 1..=25 {
        let kind = Type::from_number(number).expect("25 types");
        assert_eq!(kind as u32, number);
        assert_eq!(kind.is_surface(), number <= 9);
        assert_eq!(kind.is_material(), (10..=24).contains(&number));
    }
    assert_eq!((Type::from_number(0), Type::from_number(26)), (None, None));
}

/// The same scene later: the first finish repainted, the lamp gone, the panel on another finish, and a bulb more.
const LATER: &[u8] = b"void plastic wall 0 0 5 .5 .5 .6 0 0\n\
    void plastic wall 0 0 5 .2 .2 .2 0 0\n\
    void alias trim wall\n\
    trim illum panel 1 trim 0 3 1 2 3\n\
    void light bulb 0 0 3 1 1 1\n";

#[test]
fn saves_are_compared_by_name() {
    let ((mut a, mut x), (mut b, mut y)) = (([9; RECORD * 6], [9.0; 20]), ([9; RECORD * 7], [9.0; 21]));
    let saves = Saves::read(Mode::New, SAMPLE, &mut a, &mut x, LATER, &mut b, &mut y).expect("both are well-formed");
    assert_eq!(saves.left.counts(), Counts { primitives: 5, reals: 17 });
    assert_eq!(saves.right.counts(), Counts { primitives: 5, reals: 16 });
    let mut lines = saves.lines();
    let line = |name, nth, state, side, number| Some(Line { name, nth, state, side, number });
    assert_eq!(lines.next(), line(b"bulb", 1, State::OnlyRight, Side::Right, 5));
    assert_eq!(lines.next(), line(b"lamp", 1, State::OnlyLeft, Side::Left, 3));
    assert_eq!(lines.next(), line(b"panel", 1, State::Changed, Side::Left, 5));
    assert_eq!(lines.next(), line(b"wall", 1, State::Changed, Side::Left, 1));
    assert_eq!((lines.next(), lines.next()), (None, None));
    assert_eq!(compare(saves.left, saves.left).count(), 0);
    let states = compare(saves.right, saves.left).map(|line| line.state.to_string());
    assert_eq!(states.collect::<Vec<_>>(), ["left", "right", "changed", "changed"]);
}

#[test]
fn a_refused_save_is_named() {
    let ((mut a, mut x), (mut b, mut y)) = (([9; 60], [9.0; 20]), ([9; 70], [9.0; 21]));
    let refused = b"a sphere s 0 0 4 0 0 0 1";
    let refusal = read_both(Mode::New, SAMPLE, &mut a, &mut x, refused, &mut b, &mut y)
        .expect_err("the right one has no modifier");
    assert_eq!(refusal.side, Side::Right);
    assert_eq!(refusal.refusal, Refusal { reason: Reason::NoModifier, place: 0 });
    assert_eq!(((a, x), (b, y)), (([0; 60], [0.0; 20]), ([0; 70], [0.0; 21])));
    assert_eq!(refusal.to_string(), "right scene: modifier not defined above (reason 7), at byte 0");
    let refusal = read_both(Mode::New, b"!", &mut a, &mut x, refused, &mut b, &mut y).expect_err("both are refused");
    assert_eq!((refusal.side, refusal.refusal.reason), (Side::Left, Reason::Command));
}

#[test]
fn a_scene_is_written_out() {
    let text = b"  void light # 0 0 03 1. 1e0 +1 # the name was no comment\nvoid alias trim #";
    let tidy = b"void light #\n0\n0\n3 1. 1e0 +1\nvoid alias trim #\n";
    let (mut records, mut reals, mut pairs, mut out) = ([9; 35], [9.0; 5], [9; 6], [9; 80]);
    let scene = Scene::read(Mode::New, text, &mut records, &mut reals, &mut pairs).expect("well-formed");
    assert_eq!(scene.write(&mut out), Ok(&tidy[..]));
    assert!(out[tidy.len()..].iter().all(|&byte| byte == 0));
    assert_eq!(write(Mode::New, text, &records, &reals, &mut out), Ok(&tidy[..]));
    assert_eq!(write(Mode::New, text, &records, &reals, &mut out[..tidy.len()]), Ok(&tidy[..]));
    assert_eq!(write(Mode::New, text, &records, &reals, &mut out[..tidy.len() - 1]), Err(Unwritten::OutputTooSmall));
    reals[4] = f64::NAN;
    assert_eq!(write(Mode::New, text, &records, &reals, &mut out), Err(Unwritten::TablesDiffer));
    assert_eq!(out, [0; 80]);
    let refusal = Refusal { reason: Reason::NoRealRoom, place: 19 };
    assert_eq!(write(Mode::New, text, &records, &reals[..2], &mut out), Err(Unwritten::Refused(refusal)));
    assert_eq!(Unwritten::Refused(refusal).to_string(), "no room for the reals (reason 13), at byte 19");
    let numbers =
        [Unwritten::Refused(refusal), Unwritten::TablesDiffer, Unwritten::OutputTooSmall].map(Unwritten::number);
    assert_eq!(numbers, [13, 22, 23]);
}

/// Glass of three reals and of four, its index spelled exactly, otherwise and not at all; and an alias of the first.
const PANES: &[u8] = b"void glass clear 0 0 3 .96 .96 .96\nvoid glass grey 0 0 4 .5 .5 .5 1.52\n\
    void glass thick 0 0 4 .5 .5 .5 1.520\nvoid alias tint clear\n";

#[test]
fn glass_is_moved() {
    let (mut records, mut reals, mut pairs, mut out) = ([9; RECORD * 4], [9.0; 12], [9; PAIR * 4], [9; 150]);
    let scene = Scene::read(Mode::New, PANES, &mut records, &mut reals, &mut pairs).expect("well-formed");
    let forth = b"void glass clear\n0\n0\n4 .96 .96 .96 1.52\nvoid glass grey\n0\n0\n4 .5 .5 .5 1.52\n\
        void glass thick\n0\n0\n4 .5 .5 .5 1.520\nvoid alias tint clear\n";
    let back = b"void glass clear\n0\n0\n3 .96 .96 .96\nvoid glass grey\n0\n0\n3 .5 .5 .5\n\
        void glass thick\n0\n0\n4 .5 .5 .5 1.520\nvoid alias tint clear\n";
    assert_eq!(scene.move_glass(Direction::Forth, &mut out), Ok(&forth[..]));
    assert!(out[forth.len()..].iter().all(|&byte| byte == 0));
    assert_eq!(scene.move_glass(Direction::Back, &mut out[..back.len()]), Ok(&back[..]));
    assert_eq!(scene.move_glass(Direction::Back, &mut out[..back.len() - 1]), Err(Unwritten::OutputTooSmall));
    let (used, no_room) = (&reals[..11], Unwritten::Refused(Refusal { reason: Reason::NoRealRoom, place: 0 }));
    assert_eq!(move_glass(Mode::New, Direction::Forth, PANES, &records, used, &mut out), Err(no_room));
    assert_eq!(out, [0; 150]);
    assert_eq!(move_glass(Mode::New, Direction::Back, PANES, &records, used, &mut out), Ok(&back[..]));
    reals[11] = -0.0;
    assert_eq!(move_glass(Mode::New, Direction::Back, PANES, &records, &reals, &mut out), Err(Unwritten::TablesDiffer));
    let refusal = Refusal { reason: Reason::NoRecordRoom, place: PANES.len() - 22 };
    assert_eq!(
        move_glass(Mode::New, Direction::Forth, PANES, &records[..43], &reals, &mut out),
        Err(Unwritten::Refused(refusal))
    );
    assert_eq!([Direction::Forth, Direction::Back].map(Direction::number), [0, 1]);
}

/// A wall above the lamp before it, whose name another wall has below; notes go along, and the last one stays.
const UNSORTED: &[u8] = b"# oak\nvoid plastic wall 0 0 5 .5 .4 .2 0 0\nwall sphere knob 0 0 4 0 0 0 1 # brass?\n\n\
    void light\nlamp 0 0 3 1 1 1\nvoid plastic wall 0 0 5 .2 .2 .2 0 0\n# the end\n";

#[test]
fn a_scene_is_sorted() {
    let sorted = b"\nvoid light\nlamp 0 0 3 1 1 1\n# oak\nvoid plastic wall 0 0 5 .5 .4 .2 0 0\n\
        wall sphere knob 0 0 4 0 0 0 1 # brass?\nvoid plastic wall 0 0 5 .2 .2 .2 0 0\n# the end\n";
    let (mut records, mut reals, mut pairs, mut out) = ([9; RECORD * 5], [9.0; 18], [9; PAIR * 5], [9; 200]);
    let scene = Scene::read(Mode::New, UNSORTED, &mut records, &mut reals, &mut pairs).expect("well-formed");
    assert_eq!(scene.sort(&mut out), Ok(&sorted[..]));
    assert!(out[sorted.len()..].iter().all(|&byte| byte == 0));
    assert_eq!(scene.sort(&mut out[..sorted.len()]), Ok(&sorted[..]));
    let ((mut a, mut x), (mut b, mut y)) = (([9; RECORD * 4], [9.0; 17]), ([9; RECORD * 4], [9.0; 17]));
    let saves = Saves::read(Mode::New, UNSORTED, &mut a, &mut x, sorted, &mut b, &mut y).expect("both are well-formed");
    assert_eq!(saves.lines().count(), 0);
    assert_eq!(
        (saves.left.finish(2), saves.right.finish(3)),
        (scene.finish(2), Ok(Finish { material: Some(2), links: 1 }))
    );
    assert_eq!(saves.right.sort(&mut out), Ok(&sorted[..]));
    assert_eq!(scene.sort(&mut out[..sorted.len() - 1]), Err(Unwritten::OutputTooSmall));
    assert_eq!(sort(Mode::New, UNSORTED, &records, &reals, &mut out), Ok(&sorted[..]));
    records[RECORD - 1] += 1;
    assert_eq!(sort(Mode::New, UNSORTED, &records, &reals, &mut out), Err(Unwritten::TablesDiffer));
    assert_eq!(out, [0; 200]);
    let refusal = Refusal { reason: Reason::NoRecordRoom, place: UNSORTED.len() - 47 };
    assert_eq!(sort(Mode::New, UNSORTED, &records[..43], &reals, &mut out), Err(Unwritten::Refused(refusal)));
}

#[test]
fn a_scene_with_other_lines_is_not_sorted() {
    let mut out = [9; 64];
    let mut refused = |text: &[u8]| {
        out.fill(9);
        let (mut records, mut reals, mut pairs) = ([9; RECORD * 2], [9.0; 3], [9; PAIR * 2]);
        let scene = Scene::read(Mode::New, text, &mut records, &mut reals, &mut pairs).expect("well-formed");
        let refused = scene.sort(&mut out).expect_err("lines end elsewhere");
        assert_eq!(out, [0; 64]);
        refused
    };
    let unended = refused(b"void light lamp 0 0 3 1 1 1\n# a lamp");
    assert_eq!(unended, Unwritten::LastLineNotEnded { place: 36 });
    assert_eq!(unended.to_string(), "last line not ended (reason 33), at byte 36");
    let crowded = refused(b"void light lamp 0 0 3 1 1 1 void alias bulb lamp\n");
    assert_eq!(crowded, Unwritten::TwoOnALine { place: 28 });
    assert_eq!(crowded.to_string(), "two statements on a line (reason 34), at byte 28");
    assert_eq!([unended, crowded].map(Unwritten::number), [33, 34]);
    assert_eq!(refused(b"void light lamp 0 0 3 1 1 1 void alias bulb lamp"), Unwritten::LastLineNotEnded { place: 48 });
}

/// A wall with a knob on it; then the wall painted anew, and in another hand's scene a shelf beside the knob.
const PLAIN: &[u8] = b"void plastic wall 0 0 5 .5 .5 .5 0 0\nwall sphere knob 0 0 4 0 0 0 1\n";
const PAINTED: &[u8] = b"void plastic wall 0 0 5 .2 .2 .2 0 0 # grey\nwall sphere knob 0 0 4 0 0 0 1\n";
const SHELVED: &[u8] = b"void plastic wall 0 0 05 0.5 .50 .5 0 0\nwall sphere knob 0 0 4 0 0 0 1.\n\
    wall polygon Shelf 0 0 9 0 0 0 1 0 0 0 1 0\n";

#[test]
fn edits_are_joined() {
    let edits = Edits { base: PLAIN, left: PAINTED, right: SHELVED };
    let expected = b"void plastic wall\n0\n0\n5 .2 .2 .2 0 0\nwall polygon Shelf\n0\n0\n9 0 0 0 1 0 0 0 1 0\n\
        wall sphere knob\n0\n0\n4 0 0 0 1\n";
    let (mut records, mut reals, mut out) = ([9; RECORD * 4 + 3], [9.0; 20], [9; 120]);
    let joined = join(Mode::New, edits, &mut records, &mut reals, &mut out).expect("each name is changed by one hand");
    assert_eq!(joined.text, expected);
    assert_eq!(joined.scene.counts(), Counts { primitives: 3, reals: 18 });
    assert_eq!(
        joined.scene.primitives().map(|p| p.name().bytes).collect::<Vec<_>>(),
        [&b"wall"[..], b"Shelf", b"knob"]
    );
    assert_eq!(joined.scene.finish(2), Ok(Finish { material: Some(1), links: 1 }));
    assert!(records[RECORD * 3..].iter().all(|&entry| entry == 0) && reals[18..] == [0.0; 2]);
    assert!(out[expected.len()..].iter().all(|&byte| byte == 0));
    // The other hand's spelling of what both have
    let turned = Edits { left: SHELVED, right: PAINTED, ..edits };
    let joined = join(Mode::New, turned, &mut records, &mut reals, &mut out).expect("as before");
    assert_eq!(joined.text, [&expected[..expected.len() - 1], b".\n"].concat());
    let len = expected.len();
    assert!(join(Mode::New, edits, &mut records, &mut reals, &mut out[..len]).is_ok());
    let small = join(Mode::New, edits, &mut records, &mut reals, &mut out[..len - 1]);
    assert_eq!(small.unwrap_err(), Unjoined::OutputTooSmall);
    assert_eq!((records, reals), ([0; RECORD * 4 + 3], [0.0; 20]));
    assert!(out[..len - 1].iter().all(|&byte| byte == 0));
}

#[test]
fn a_typed_join_is_checked() {
    let edits = Edits { base: PLAIN, left: PAINTED, right: SHELVED };
    let typed = b"# both\nvoid plastic wall 0 0 5 .20 .2 2e-1 0 0\nwall sphere knob 0 0 4 0 0 0 1\n\
        wall polygon Shelf 0 0 9 0 0 0 1 0 0 0 1 0\n";
    let (mut records, mut reals, mut out) = ([9; RECORD * 4], [9.0; 21], [9; 160]);
    let checked = check_join(Mode::New, edits, typed, &mut records, &mut reals, &mut out).expect("it holds just these");
    assert_eq!((checked.text, checked.scene.counts()), (&typed[..], Counts { primitives: 3, reals: 18 }));
    assert_eq!(checked.scene.name(3), Ok(&b"Shelf"[..]));
    let mut refused = |typed: &[u8]| {
        let refused = check_join(Mode::New, edits, typed, &mut records, &mut reals, &mut out).expect_err("refused");
        assert!(records == [0; RECORD * 4] && reals == [0.0; 21] && out == [0; 160]);
        (records, reals, out) = ([9; RECORD * 4], [9.0; 21], [9; 160]);
        refused
    };
    // The shelf is missing, and a light is too many
    assert_eq!(refused(PAINTED), Unjoined::OtherDefinitions);
    assert_eq!(refused(&[&typed[..], b"void light l 0 0 3 1 1 1"].concat()), Unjoined::OtherDefinitions);
    let refusal = Refusal { reason: Reason::TextEnds, place: typed.len() + 4 };
    let ends = refused(&[&typed[..], b"void"].concat());
    assert_eq!(ends, Unjoined::Refused { text: JoinText::Joined, refusal });
    assert_eq!(
        ends.to_string(),
        format!("joined scene: text ends inside a statement (reason 5), at byte {}", refusal.place)
    );
}

/// A white wall, and one with a shelf on it.
const WHITE: &[u8] = b"void plastic wall 0 0 5 1 1 1 0 0\n";
const WHITE_SHELVED: &[u8] = b"void plastic wall 0 0 5 1 1 1 0 0\nwall polygon shelf 0 0 9 0 0 0 1 0 0 0 1 0\n";

#[test]
fn edits_are_not_joined() {
    let (mut records, mut reals, mut out) = ([9; RECORD * 4], [9.0; 20], [9; 99]);
    let mut refused = |base: &[u8], left: &[u8], right: &[u8]| {
        let edits = Edits { base, left, right };
        let refused = join(Mode::New, edits, &mut records, &mut reals, &mut out).expect_err("refused");
        assert!(records == [0; RECORD * 4] && reals == [0.0; 20] && out == [0; 99]);
        (records, reals, out) = ([9; RECORD * 4], [9.0; 20], [9; 99]);
        refused
    };
    let no_modifier = |text| {
        let refusal = Refusal { reason: Reason::NoModifier, place: 0 };
        Unjoined::Refused { text, refusal }
    };
    let bad = b"a sphere s 0 0 4 0 0 0 1";
    assert_eq!(refused(bad, bad, bad), no_modifier(JoinText::Base));
    assert_eq!(refused(PLAIN, bad, bad), no_modifier(JoinText::Left));
    let right = refused(WHITE, PLAIN, bad);
    assert_eq!(right, no_modifier(JoinText::Right));
    assert_eq!(right.to_string(), "right scene: modifier not defined above (reason 7), at byte 0");
    assert_eq!(
        std::error::Error::source(&right).map(ToString::to_string),
        Some("modifier not defined above (reason 7), at byte 0".to_owned())
    );
    let twice = refused(PLAIN, PLAIN, &[PLAIN, b"void light knob 0 0 3 1 1 1"].concat());
    let changed = refused(PLAIN, PAINTED, WHITE);
    let unordered = refused(WHITE, b"", WHITE_SHELVED);
    assert_eq!([twice, changed, unordered], [Unjoined::NameTwice, Unjoined::BothChanged, Unjoined::NoOrder]);
    let all = [twice, changed, unordered, Unjoined::OtherDefinitions, Unjoined::OutputTooSmall, right];
    assert_eq!(all.map(Unjoined::number), [29, 30, 31, 32, 23, 7]);
    assert_eq!(
        all[..5].iter().map(ToString::to_string).collect::<Vec<_>>(),
        [
            "a name stands twice in one scene (reason 29)",
            "both hands changed one name differently (reason 30)",
            "no order puts each definition after those it needs (reason 31)",
            "the typed scene holds other definitions (reason 32)",
            "the output is too small (reason 23)",
        ]
    );
    let missing = refused(WHITE, b"", b"void plastic wall 0 0 5 1 1 1 0 0 void mixfunc m 4 void wall v f 0 0");
    let refusal = Refusal { reason: Reason::SideNotDefined, place: 22 };
    assert_eq!(missing, Unjoined::Refused { text: JoinText::Joined, refusal });
}

#[test]
fn words_end_where_the_text_does() {
    let text = b" one\n\ttwo ";
    let found: Vec<_> = words(text).map(|word| (word.place, word.bytes)).collect();
    assert_eq!(found, [(1, &b"one"[..]), (6, b"two")]);
    assert_eq!(next_word(text, 2), Word { place: 2, bytes: b"ne" });
    for at in [9, 10, 11, usize::MAX] {
        assert_eq!(next_word(text, at), Word { place: 10, bytes: b"" });
    }
    assert_eq!(words(b"").next(), None);
}

#[test]
fn rays_hit_miss_and_are_refused() {
    let down = [0.0, 0.0, 1.0];
    let from = |x: f64, z: f64| Ray { origin: [x, 0.0, z], direction: down };
    let unit = Sphere { centre: [0.0; 3], radius: 1.0 };
    assert_eq!(sphere(&from(0.0, -5.0), &unit), Ok(Some(4.0)));
    assert_eq!(sphere(&from(0.0, 0.0), &unit), Ok(Some(1.0)));
    assert_eq!(sphere(&from(1.0, -5.0), &unit), Ok(Some(5.0)));
    assert_eq!(sphere(&from(2.0, -5.0), &unit), Ok(None));
    assert_eq!(sphere(&from(f64::NAN, -5.0), &unit), Err(Step::NotFinite));
    assert_eq!(sphere(&from(0.0, -5.0), &Sphere { radius: 0.0, ..unit }), Err(Step::OutOfRange));
    let flat = Ring { centre: [0.0; 3], normal: down, inner: 1.0, outer: 2.0 };
    assert_eq!(ring(&from(1.5, -3.0), &flat), Ok(Some(3.0)));
    assert_eq!(ring(&from(0.5, -3.0), &flat), Ok(None));
    assert_eq!(ring(&from(0.5, -3.0), &Ring { outer: 1.0, ..flat }), Err(Step::OutOfRange));
}

#[test]
fn rays_start_too_close() {
    let from = |z: f64| Ray { origin: [0.0, 0.0, z], direction: [0.0, 0.0, 1.0] };
    let unit = Sphere { centre: [0.0; 3], radius: 1.0 };
    // From the sphere's own surface, and from just before it
    assert_eq!((sphere(&from(-1.0), &unit), sphere_above(&from(-1.0), &unit, 0.0)), (Ok(Some(2.0)), Ok(Some(2.0))));
    assert_eq!(sphere_above(&from(-1.0009765625), &unit, 0.0), Ok(Some(0.0009765625)));
    assert_eq!(sphere(&from(-1.0009765625), &unit), Ok(Some(2.0009765625)));
    assert_eq!(sphere_above(&from(-3.0), &unit, 2.0), Ok(Some(4.0)));
    assert_eq!(sphere_above(&from(-3.0), &unit, 4.0), Ok(None));
    assert_eq!(sphere_above(&from(-3.0), &unit, -0.0), Ok(Some(2.0)));
    assert_eq!(sphere_above(&from(-3.0), &unit, -5e-324), Err(Step::OutOfRange));
    assert_eq!(sphere_above(&from(-3.0), &Sphere { radius: -1.0, ..unit }, f64::INFINITY), Err(Step::NotFinite));
    let flat = Ring { centre: [0.0; 3], normal: [0.0, 0.0, 1.0], inner: 0.0, outer: 2.0 };
    assert_eq!((ring(&from(-0.001), &flat), ring_above(&from(-0.001), &flat, 0.0)), (Ok(None), Ok(Some(LEAST))));
    let square = [[-1.0, -1.0, 0.0], [1.0, -1.0, 0.0], [1.0, 1.0, 0.0], [-1.0, 1.0, 0.0]];
    assert_eq!(
        (polygon(&from(-0.001), &square), polygon_above(&from(-0.001), &square, 0.0)),
        (Ok(None), Ok(Some(LEAST)))
    );
    assert_eq!(polygon(&from(-0.001_f64.next_up()), &square), Ok(Some(LEAST.next_up())));
}

/// A screen with a hole, joined to its rim by an edge that is gone along twice.
const SCREEN: &[u8] = b"void plastic trim 0 0 5 .2 .2 .2 0 0\n\
    trim polygon screen 0 0 30 0 0 0 4 0 0 4 3 0 0 3 0 0 0 0 1 1 0 1 2 0 3 2 0 3 1 0 1 1 0\n";

#[test]
fn rays_hit_polygons() {
    let down = |x: f64, y: f64| Ray { origin: [x, y, -5.0], direction: [0.0, 0.0, 1.0] };
    let square = [[0.0, 0.0, 0.0], [2.0, 0.0, 0.0], [2.0, 2.0, 0.0], [0.0, 2.0, 0.0]];
    assert_eq!(polygon(&down(1.0, 1.0), &square), Ok(Some(5.0)));
    assert_eq!(polygon(&down(3.0, 1.0), &square), Ok(None));
    // An edge counts at its lower end and not at its upper one
    assert_eq!(polygon(&down(1.0, 0.0), &square), Ok(Some(5.0)));
    assert_eq!(polygon(&down(1.0, 2.0), &square), Ok(None));
    assert_eq!(polygon(&down(f64::NAN, 1.0), &square[..1]), Err(Step::NotFinite));
    assert_eq!(polygon(&down(1.0, 1.0), &square[..2]), Err(Step::OutOfRange));
    assert_eq!(polygon(&down(1.0, 1.0), &[[1.0, 2.0, 3.0]; 3]), Err(Step::OutOfRange));
    let (mut records, mut reals, mut pairs) = ([9; RECORD * 2], [9.0; 35], [9; PAIR * 2]);
    let scene = Scene::read(Mode::New, SCREEN, &mut records, &mut reals, &mut pairs).expect("well-formed");
    assert_eq!(scene.polygon(&down(0.5, 0.5), 2), Ok(Some(5.0)));
    assert_eq!(scene.polygon(&down(2.0, 1.5), 2), Ok(None));
    assert_eq!(
        (scene.polygon_above(&down(0.5, 0.5), 2, 4.5), scene.polygon_above(&down(0.5, 0.5), 2, 5.0)),
        (Ok(Some(5.0)), Ok(None))
    );
    assert_eq!(scene.polygon(&down(0.5, 0.5), 1), Err(PolygonRefusal::Question(Question::BadTable)));
    assert_eq!(scene.polygon(&down(0.5, 0.5), 3), Err(PolygonRefusal::Question(Question::NoSuchPrimitive)));
    assert_eq!(scene.polygon(&down(0.5, f64::INFINITY), 2), Err(PolygonRefusal::Step(Step::NotFinite)));
    assert_eq!(PolygonRefusal::Step(Step::NotFinite).number(), 20);
    assert_eq!(
        polygon_in_table(&down(0.5, 0.5), &records, 2, 2, &reals[..34]).map_err(PolygonRefusal::number),
        Err(18)
    );
    assert_eq!(
        polygon_in_table_above(&down(0.5, 0.5), &records, 2, 2, &reals, -1.0).map_err(PolygonRefusal::number),
        Err(21)
    );
}

#[test]
fn light_is_reflected() {
    let all = |x: f64| Ok(Reflection::Coefficients { te: x, tm: x, f: x });
    assert_eq!(fresnel(1.0, 1.0, 3.0), all(0.25));
    assert_eq!(fresnel(1.0, 1.0, 1.0), all(0.0));
    assert_eq!(fresnel(0.5, 2.0, 1.0), Ok(Reflection::Total));
    assert_eq!(fresnel(0.0, 1.0, 1.5), all(1.0));
    assert_eq!(fresnel(-0.0, 1.0, 1.5), all(1.0));
    assert_eq!(fresnel(0.0, 1.5, 1.5), Err(Step::NotFinite));
    assert_eq!(fresnel(1.5, 1.0, 1.5), Err(Step::OutOfRange));
    assert_eq!(pane_factors(0.0, 0.0, 0.5), Ok(Factors { through: 1.0, back: 0.0 }));
    assert_eq!(pane_factors(0.5, 0.0, 1.0).map(|factors| factors.through), Ok(0.5 * 0.25 / 0.75 + 0.5));
    assert_eq!(pane_factors(1.0, 0.5, 1.0), Err(Step::NotFinite));
    assert_eq!(pane_factors(2.0, 0.5, f64::NAN), Err(Step::NotFinite));
    assert_eq!(pane_factors(0.5, -5e-324, 0.5), Err(Step::OutOfRange));
    assert!(transmissivity(1.0).is_ok_and(|clear| (1.0..1.1).contains(&clear)));
    assert!(transmissivity(1e-5).is_ok_and(|dark| dark < 0.0));
    assert_eq!([5e-324, f64::INFINITY].map(transmissivity), [Err(Step::NotFinite); 2]);
    assert_eq!([0.0, 1.0_f64.next_up()].map(transmissivity), [Err(Step::OutOfRange); 2]);
    // Rounded down: the nearest double to the root of 2 lies above it
    assert_eq!((root(2.0), root(-0.0), root(-1.0)), (Some(SQRT_2.next_down()), Some(0.0), None));
}
