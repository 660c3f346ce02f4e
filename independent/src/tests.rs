//! Positions, moves and files with their known answers, the published counts and files, and one part of
//! this program held against another.

use crate::certificate;
use crate::check;
use crate::classes::{twin, Family};
use crate::fault::Fault;
use crate::file::{self, Opened, Records, Table};
use crate::rules::*;
use crate::sha256::Sha256;
use crate::solve::solve;
use crate::text;
use crate::unmove::unmoves;
use std::collections::HashMap;
use std::io::Write;

const BOTH: [Rules; 2] = [Rules::A, Rules::B];

/// The families of published.txt: set, rules, positions, classes, digest of the file.
fn published() -> impl Iterator<Item = ([u8; 3], Rules, u64, u32, &'static str)> {
    include_str!("../published.txt").lines().skip(1).map(|line| {
        let words: Vec<&str> = line.split(' ').collect();
        let rules = if words[1] == "A" { Rules::A } else { Rules::B };
        let set = text::read_set(words[0]).unwrap();
        (set, rules, words[2].parse().unwrap(), words[3].parse().unwrap(), words[4])
    })
}

fn pieces(set: [u8; 3]) -> u8 {
    set.iter().sum()
}

/// All positions of a family.
fn all(family: &Family) -> Vec<Position> {
    let listed = family.runs.iter().flat_map(|run| family.positions(run)).map(|(_, p)| p);
    let legal = listed.filter(|p| family.rules == Rules::A || !p.far_chick());
    legal.flat_map(|p| if twin(&p) { vec![p] } else { vec![p, p.mirrored()] }).collect()
}

/// The bytes of a family's file.
fn built(set: [u8; 3], rules: Rules) -> Vec<u8> {
    let family = Family::new(set, rules);
    let solution = solve(&family, 2, &|_| ()).unwrap();
    let mut bytes = vec![];
    let records = (0..family.classes).map(|class| solution.record(&family.representative(class)));
    file::write(&mut bytes, &family, records).unwrap();
    bytes
}

fn table(set: [u8; 3], rules: Rules) -> Table {
    file::read(built(set, rules)).unwrap()
}

fn read(position: &str) -> Position {
    text::read_position(position).unwrap()
}

fn digest(bytes: &[u8]) -> [u8; 32] {
    let mut digest = Sha256::new();
    digest.add(bytes);
    digest.digest()
}

fn hex(bytes: &[u8]) -> String {
    bytes.iter().map(|byte| format!("{byte:02x}")).collect()
}

#[test]
fn digests() {
    assert_eq!(hex(&digest(b"")), "e3b0c44298fc1c149afbf4c8996fb92427ae41e4649b934ca495991b7852b855");
    assert_eq!(hex(&digest(b"abc")), "ba7816bf8f01cfea414140de5dae2223b00361a396177a9cb410ff61f20015ad");
    let many = vec![b'a'; 1_000_000];
    assert_eq!(hex(&digest(&many)), "cdc76e5c9914fb9281a1c7e284d73e67f1809a48a497200e046d39ccc7112cd0");
    let mut pieces = Sha256::new();
    many.chunks(61).for_each(|piece| pieces.add(piece));
    assert_eq!(pieces.digest(), digest(&many));
}

#[test]
fn values_of_lions_alone() {
    let lions = table([0; 3], Rules::A);
    for (position, value) in [
        ("..l/.../L../... - -", "win 3"),
        (".../.l./.L./... - -", "win 1"),
        ("..l/L../.../... - -", "win 1"),
        (".../L../.../..l - -", "loss 0"),
        (".../.../.L./l.. - -", "win 1"),
        (".../.../..l/L.. - -", "loss 2"),
        (".l./.../.../.L. - -", "win 5"),
        (".../.l./.../.L. - -", "loss 4"),
        (".l./.../.L./... - -", "draw"),
    ] {
        assert_eq!(text::value(lions.record(&read(position))), value, "{position}");
    }
}

#[test]
fn faults_of_texts() {
    for (position, fault) in [
        ("L../.../.../..l - -", "E6 FarLion"),
        (".../.../.../L.. - -", "E4 Lions"),
        ("..l/.../.../L.. GC -", "E3 Hand"),
        ("..l/.../.../L.. CC EG", "E3 Hand"),
        ("..l/.../.../L.. CCC -", "E5 Count"),
        ("..l/.../.../L.x - -", "E2 Letter"),
        ("..l/.../.../L.é - -", "E1 Shape"),
        ("..l/.../.../L..  - -", "E1 Shape"),
        ("..l/.../.../L.. - - ", "E1 Shape"),
        ("..l/.../../L.. - -", "E1 Shape"),
        ("", "E1 Shape"),
    ] {
        assert!(text::read_position(position).unwrap_err().to_string().starts_with(fault), "{position}");
    }
    assert!(text::read_set("3").unwrap_err().to_string().starts_with("E25 SetText"));
    assert_eq!(read("gle/.c./.C./ELG - -").set(), [2, 2, 2]);
}

fn moves_of(position: &str, rules: Rules) -> String {
    let p = read(position);
    let Status::Open(moves) = p.status(rules) else { panic!("{position} isn't open") };
    moves.iter().map(|&one| text::move_of(&p, one)).collect::<Vec<_>>().join(" ")
}

#[test]
fn moves_and_what_they_lead_to() {
    assert_eq!(moves_of(".l./.../.../.L. - -", Rules::A), "Lb1-a1 Lb1-c1 Lb1-a2 Lb1-b2 Lb1-c2");
    let steps = "La1-b1 La1-a2 La1-b2";
    let drops = "C*b1 C*c1 C*a2 C*b2 C*c2 C*a3 C*b3 C*c3";
    assert_eq!(moves_of("..l/.../.../L.. C -", Rules::A), format!("{steps} {drops} C*a4 C*b4"));
    assert_eq!(moves_of("..l/.../.../L.. C -", Rules::B), format!("{steps} {drops}"));
    assert_eq!(moves_of("H../.l./.../L.. - -", Rules::A), format!("{steps} Ha4-a3 Ha4-b4"));
    assert_eq!(moves_of("C.l/.../.../L.. - -", Rules::A), steps);
    for (position, from, to, after) in
        [("..l/.../h../L.. - -", 0, 3, ".../..l/.../L.. - c"), ("..l/C../.../L.. - -", 6, 9, "..l/.../.../L.h - -")]
    {
        assert_eq!(text::position(&read(position).play(Move::Step { from, to })), after);
    }
    assert_eq!(read(".../.l./H../L.. - -").status(Rules::A), Status::Caught);
    assert_eq!(read("GEl/LGE/CC./... - -").status(Rules::A), Status::Stuck);
}

#[test]
fn predecessors_of_three_classes() {
    let family = Family::new([0; 3], Rules::A);
    let mut back = vec![vec![]; 54];
    for class in 0..54 {
        let p = family.representative(class);
        if let Status::Open(moves) = p.status(Rules::A) {
            moves.iter().for_each(|&one| back[family.class(&p.play(one)) as usize].push(class));
        }
    }
    assert_eq!(family.class(&read(".l./.../.../.L. - -")), 17);
    assert_eq!(back[14], [9, 17, 17, 35, 35]);
    assert_eq!(back[15], [9, 17, 27]);
    assert_eq!(back[16], [17, 17, 27, 35, 35]);
}

#[test]
fn all_classes_are_as_many_as_published() {
    for (set, rules, _, classes, _) in published() {
        assert_eq!(Family::new(set, rules).classes, classes, "{set:?} {rules:?}");
    }
}

/// By a formula, for rules A: squares for each kind, hands, lions, and the positions that are their own mirror images.
#[test]
fn positions_are_as_many_as_published() {
    let choose = |m: u64, r: u64| [1, m, m * m.saturating_sub(1) / 2][r as usize];
    for (set, _, positions, classes, _) in published().filter(|family| family.1 == Rules::A) {
        let (mut size, mut own_images) = (0, 0);
        let [c, e, g] = set.map(|n| n as u64);
        for (i, j, k) in (0..=c).flat_map(|i| (0..=e).flat_map(move |j| (0..=g).map(move |k| (i, j, k)))) {
            let hands = (c - i + 1) * (e - j + 1) * (g - k + 1);
            let places = choose(10, i) * choose(10 - i, j) * choose(10 - i - j, k);
            size += (hands * 99 * places) << (2 * i + j + k);
            for pairs in 0..8 {
                let (p, q, r) = (pairs / 4, pairs / 2 % 2, pairs % 2);
                if 2 * p > i || 2 * q > j || 2 * r > k || i + j + k - 2 * (p + q + r) > 2 {
                    continue;
                }
                let (x, y, z) = (i - 2 * p, j - 2 * q, k - 2 * r);
                let middle = choose(2, x) * choose(2 - x, y) * choose(2 - x - y, z);
                let rows = [1, 4, 12, 24][(p + q + r) as usize];
                own_images += (hands * 9 * middle * rows) << (2 * (i - p) + (j - q) + (k - r));
            }
        }
        assert_eq!((size, (size + own_images) / 2), (positions, classes as u64), "{set:?}");
    }
    for (set, rules, positions, ..) in published().filter(|family| pieces(family.0) <= 3) {
        assert_eq!(all(&Family::new(set, rules)).len() as u64, positions, "{set:?} {rules:?}");
    }
}

/// The key of docs/FORMAT.md.
fn key(p: &Position) -> Vec<usize> {
    let mut key: Vec<usize> = p.on.iter().map(|on| on.count_ones() as usize).collect();
    key.extend(p.hand[MOVER].map(|n| n as usize));
    key.extend(p.lion.map(|s| s as usize));
    key.extend(p.on.iter().flat_map(|&on| squares(on)));
    for kind in 0..3 {
        for bit in squares(p.on[kind]).map(|s| 1 << s) {
            let (enemy, hen) = ((p.enemy & bit != 0) as usize, (p.hens & bit != 0) as usize);
            key.push(if kind == CHICK { 2 * enemy + hen } else { enemy });
        }
    }
    key
}

#[test]
fn classes_are_in_the_order_of_the_key() {
    for (set, rules, ..) in published().filter(|family| pieces(family.0) <= 2) {
        let family = Family::new(set, rules);
        let mut earlier: Vec<Position> = all(&family).into_iter().filter(|p| key(p) <= key(&p.mirrored())).collect();
        earlier.sort_by_cached_key(key);
        assert_eq!(earlier.len(), family.classes as usize);
        for (class, p) in (0..).zip(&earlier) {
            assert_eq!(family.representative(class), *p);
            assert_eq!((family.class(p), family.class(&p.mirrored())), (class, class));
            assert_eq!(read(&text::position(p)), *p);
        }
        let listed = family.runs.iter().flat_map(|run| family.marked_places(run));
        assert!(listed.map(|place| family.at(place)).eq(earlier));
    }
}

#[test]
fn classes_of_large_sets_are_numbered_without_gaps() {
    let family = Family::new([2; 3], Rules::A);
    assert_eq!(family.class(&read("gle/.c./.C./ELG - -")), 427_671_695);
    for rules in BOTH {
        let family = Family::new([2; 3], rules);
        for class in (0..family.classes).step_by(4999) {
            let p = family.representative(class);
            assert_eq!((family.class(&p), family.class(&p.mirrored())), (class, class));
        }
    }
    assert_eq!(Family::new([1, 0, 0], Rules::A).class(&read(".l./..c/.../.L. - -")), 770);
    assert_eq!(Family::new([1, 0, 0], Rules::B).class(&read(".l./..c/.../.L. - -")), 695);
}

#[test]
fn unmoves_undo_just_the_moves() {
    for (set, rules, ..) in published().filter(|family| pieces(family.0) <= 2) {
        let mut times: HashMap<(Position, Position), i32> = HashMap::new();
        for p in all(&Family::new(set, rules)) {
            if let Status::Open(moves) = p.status(rules) {
                moves.iter().for_each(|&one| *times.entry((p, p.play(one))).or_default() += 1);
            }
            unmoves(&p, rules, |before| *times.entry((before, p)).or_default() -= 1);
        }
        assert!(times.values().all(|&times| times == 0), "{set:?} {rules:?}");
    }
}

#[test]
fn small_files_have_the_published_bytes() {
    for (set, rules, _, _, sha256) in published().filter(|family| pieces(family.0) <= 3) {
        let bytes = built(set, rules);
        assert_eq!(hex(&digest(&bytes)), sha256, "{set:?} {rules:?}");
        assert_eq!(check::inconsistent(&file::read(bytes).unwrap(), 2), None);
    }
}

fn sealed(body: &[u8]) -> Vec<u8> {
    [body, &digest(body)].concat()
}

#[test]
fn a_wrong_value_is_found() {
    let whole = built([1, 0, 0], Rules::B);
    for class in (0..1864).step_by(7) {
        let at = 21 + 2 * class;
        let right = u16::from_le_bytes([whole[at], whole[at + 1]]);
        for wrong in [0, 1, 2, right ^ 1, right + 2, 65535].into_iter().filter(|&wrong| wrong != right) {
            let mut body = whole[..whole.len() - 32].to_vec();
            body[at..at + 2].copy_from_slice(&wrong.to_le_bytes());
            let table = file::read(sealed(&body)).unwrap();
            let found = check::inconsistent(&table, 1);
            assert!(found.is_some_and(|found| found as usize <= class), "class {class}: {wrong}");
            assert_eq!(check::inconsistent(&table, 3), found);
        }
    }
}

/// Lions alone in format 1, from the records of format 2.
fn format_1() -> Vec<u8> {
    let mut bytes = built([0; 3], Rules::A);
    bytes.truncate(129);
    bytes.remove(12);
    bytes[7] = b'1';
    sealed(&bytes)
}

#[test]
fn the_file_of_lions_alone() {
    let bytes = format_1();
    assert_eq!(bytes.len(), 160);
    assert_eq!(hex(&bytes[..20]), "444f425554535531000000023600000000000000");
    assert_eq!(hex(&bytes[20..30]), "02000100020002000300");
    assert_eq!(hex(&bytes[128..136]), "098be50ec1ac9052");
    let table = file::read(bytes).unwrap();
    assert!(check::stats(&table).starts_with("classes 54\nwin 38\nloss 12\ndraw 4\nloss 0 7\n"));
    assert!(check::lines_of_moves(&table, &read("..l/.../L../... - -")).unwrap().starts_with("La2-a3 win 3\n"));
    assert_eq!(check::lines_of_moves(&table, &read(".../L../.../..l - -")).unwrap(), "end\n");
}

#[test]
fn moves_with_their_values() {
    let table = file::read(format_1()).unwrap();
    let moves = check::moves(&table, &read("..l/.../L../... - -")).unwrap();
    assert_eq!(moves[0], check::ValuedMove { one: Move::Step { from: 3, to: 6 }, value: Value::Win(3) });
    assert!(moves.windows(2).all(|two| two[0].value.badness() <= two[1].value.badness()));
    let catch = check::moves(&table, &read(".../.l./.L./... - -")).unwrap();
    assert_eq!(catch, [check::ValuedMove { one: Move::Step { from: 4, to: 7 }, value: Value::Win(1) }]);
    assert_eq!(check::moves(&table, &read(".../L../.../..l - -")).unwrap(), []);
    // A move is worth a ply more than what it leads to, for the other side, even where a record has its greatest number.
    assert_eq!(Value::of(u16::MAX).before(), Value::Win(65535));
    assert_eq!((Value::of(0).before(), Value::of(2).before()), (Value::Draw, Value::Loss(2)));
}

#[test]
fn faults_and_names() {
    let fault = text::read_position("x").unwrap_err();
    assert_eq!((fault.number(), fault.name(), &fault.to_string()[..9]), (1, "Shape", "E1 Shape:"));
    let shown = "a\u{1b}[31m\n\u{85}\u{202e}\u{3070}b";
    assert_eq!(text::shown(shown), "a\\u{1b}[31m\\n\\u{85}\\u{202e}\u{3070}b");
    let said = Opened::open("no\u{1b}such\nfile".as_ref()).err().unwrap().to_string();
    assert!(said.starts_with("E24 Io: no\\u{1b}such\\nfile: "), "{said}");
}

/// A file that is longer than its header tells isn't read on.
#[test]
fn no_more_is_read_than_a_header_tells() {
    let path = std::env::temp_dir().join(format!("independent-{}-long", std::process::id()));
    for file in [format_1(), bytes(ONE_CHICK)] {
        std::fs::write(&path, &file).unwrap();
        std::fs::OpenOptions::new().write(true).open(&path).unwrap().set_len(1 << 42).unwrap();
        let faults = [file::open(&path).err().unwrap(), certificate::open(&path).err().unwrap()];
        let is_table = file.starts_with(b"DOBUTSU");
        let wanted = if is_table { [19, 16] } else { [16, 19] };
        assert_eq!(faults.map(|fault| fault.number()), wanted);
        std::fs::write(&path, &file).unwrap();
        assert_eq!((file::open(&path).is_ok(), certificate::open(&path).is_ok()), (is_table, !is_table));
    }
    std::fs::remove_file(&path).unwrap();
}

#[test]
fn a_file_is_whole_or_as_it_was() {
    let path = std::env::temp_dir().join(format!("independent-{}", std::process::id()));
    let write =
        |text: &'static str| move |file: &mut std::fs::File| file.write_all(text.as_bytes()).map_err(|_| Fault::Memory);
    file::make(&path, write("one")).unwrap();
    let fault = file::make(&path, |file| write("two")(file).and(Err::<(), _>(Fault::Claim("no".into()))));
    assert_eq!((fault, std::fs::read(&path).unwrap()), (Err(Fault::Claim("no".into())), b"one".to_vec()));
    file::make(&path, write("three")).unwrap();
    assert_eq!(std::fs::read(&path).unwrap(), b"three");
    std::fs::remove_file(&path).unwrap();
    for wrong in ["/dev/null", "/", "", "no such folder/file"] {
        assert!(file::make(wrong.as_ref(), write("")).unwrap_err().to_string().starts_with("E24"), "{wrong}");
    }
}

/// A file with these bytes, opened.
fn opened(bytes: &[u8], name: &str) -> Result<Opened, Fault> {
    let path = std::env::temp_dir().join(format!("independent-{}-{name}", std::process::id()));
    std::fs::write(&path, bytes).unwrap();
    let opened = Opened::open(&path);
    std::fs::remove_file(&path).unwrap();
    opened
}

#[test]
fn records_are_read_one_by_one() {
    for rules in BOTH {
        let bytes = built([1, 0, 0], rules);
        let whole = file::read(bytes.clone()).unwrap();
        let one_by_one = opened(&bytes, "records").unwrap();
        for class in 0..whole.family.classes {
            assert_eq!(Records::at(&one_by_one, class), Ok(whole.at(class)));
        }
        for length in 0..21 {
            assert!(opened(&bytes[..length], "header").err().unwrap().to_string().starts_with("E15"), "{length} bytes");
        }
        let cut = opened(&bytes[..21 + 2 * 7 + 1], "cut").unwrap();
        assert_eq!(Records::at(&cut, 6), Ok(whole.at(6)));
        assert!(Records::at(&cut, 7).unwrap_err().to_string().starts_with("E15"));
        for (place, byte, fault) in [(0, b'd', "E16"), (8, 3, "E17"), (12, 2, "E27"), (13, 1, "E18")] {
            let mut wrong = bytes.clone();
            wrong[place] = byte;
            assert!(opened(&wrong, "wrong").err().unwrap().to_string().starts_with(fault), "byte {place}");
        }
    }
    assert!(Opened::open("/".as_ref()).err().unwrap().to_string().starts_with("E24"));
    assert!(Opened::open("no such file".as_ref()).err().unwrap().to_string().starts_with("E24"));
}

#[test]
fn damaged_files() {
    let whole = format_1();
    let fault = |bytes: &[u8]| file::read(bytes.to_vec()).err().unwrap();
    for length in 0..160 {
        assert!(fault(&whole[..length]).to_string().starts_with("E15"), "{length} bytes");
    }
    assert!(fault(&[&whole[..], &[0]].concat()).to_string().starts_with("E19"));
    for at in 0..160 {
        let mut bytes = whole.clone();
        bytes[at] ^= 0x80;
        let place = [8, 12, 20].into_iter().filter(|&end| at >= end).count();
        assert!(fault(&bytes).to_string().starts_with(["E16", "E17", "E18", "E20"][place]), "byte {at}");
    }
    let mut bytes = whole;
    bytes[7] = b'2';
    assert!(fault(&bytes).to_string().starts_with("E27"));
    assert!(fault(&bytes[..20]).to_string().starts_with("E15"));
}

/// A loss in exactly 8 plies, as testdata/one_chick.cert has it; and a draw of lions alone.
const ONE_CHICK: &str = "444f425543455254010100000200ae020000020808000000090000009b020214021c062002b002041408\
    8c02021402cb020534055005cc010314073803080318038005036d1e86b4d02c03c1c498d59d4aa357437c054e096d64c92a4a72735a99\
    6af91f";
const DRAW: &str = "444f425543455254010000000200230000000000000000000c00000007ff02ff01ff05ff02ff01ff08ff\
    01ff02ff07ff06ff05ffa74e36b4d366796ce87c24a8758d816a5d27a958f9f274b0a7a04e72555731fb";

fn bytes(hex: &str) -> Vec<u8> {
    let digits: Vec<u8> = hex.bytes().map(|digit| (digit as char).to_digit(16).unwrap() as u8).collect();
    digits.chunks(2).map(|two| two[0] << 4 | two[1]).collect()
}

/// What `info` says of a file with these bytes.
fn info(bytes: &[u8], name: &str) -> Result<String, Fault> {
    let path = std::env::temp_dir().join(format!("independent-{}-{name}", std::process::id()));
    std::fs::write(&path, bytes).unwrap();
    let said = file::info(&path);
    std::fs::remove_file(&path).unwrap();
    said
}

#[test]
fn what_headers_say() {
    let lions = format_1();
    assert_eq!(info(&lions[..20], "first"), Ok("set 000\nrules A\nformat 1\nclasses 54\n".into()));
    let chick = built([1, 0, 0], Rules::B);
    assert_eq!(info(&chick[..21], "second"), Ok("set 100\nrules B\nformat 2\nclasses 1864\n".into()));
    let shown = bytes(ONE_CHICK);
    let said = "position .c./l../.../.L. - -\nclaim loss 8\nrules A\nentries 17\n";
    assert_eq!(info(&shown[..28], "third"), Ok(said.into()));
    for (file, length) in [(&lions, 20), (&chick, 21), (&shown, 28)] {
        for cut in 8..length {
            assert!(info(&file[..cut], "cut").unwrap_err().to_string().starts_with("E15"), "{cut} bytes");
        }
    }
    for (file, at, byte, fault) in [
        (&chick, 0, b'd', "E16"),
        (&chick, 8, 3, "E17"),
        (&chick, 12, 2, "E27"),
        (&chick, 13, 1, "E18"),
        (&shown, 0, b'd', "E16"),
        (&shown, 8, 2, "E32"),
        (&shown, 9, 3, "E17"),
        (&shown, 13, 2, "E27"),
        (&shown, 15, 9, "E33"),
        (&shown, 18, 5, "E34"),
        (&shown, 22, 1, "E35"),
    ] {
        let mut wrong = file.clone();
        wrong[at] = byte;
        assert!(info(&wrong, "wrong").unwrap_err().to_string().starts_with(fault), "byte {at}");
    }
    assert!(file::info("/".as_ref()).unwrap_err().to_string().starts_with("E24"));
}

#[test]
fn certificates() {
    let verify = |bytes: &[u8]| certificate::read(bytes).and_then(|read| read.verify(2));
    assert_eq!(verify(&bytes(DRAW)).unwrap(), ".l./.../.L./... - - draw");
    let whole = bytes(ONE_CHICK);
    assert_eq!(verify(&whole).unwrap(), ".c./l../.../.L. - - loss 8");
    let body = whole.len() - 32;
    for length in 0..whole.len() {
        assert!(verify(&whole[..length]).unwrap_err().to_string().starts_with("E15"), "{length} bytes");
    }
    for length in 28..body {
        assert!(verify(&sealed(&whole[..length])).is_err(), "{length} bytes");
    }
    assert!(verify(&[&whole[..], &[0]].concat()).unwrap_err().to_string().starts_with("E19"));
    // No other claim and no other entry is shown, but what is weaker.
    let with = |at: usize, byte: u8| {
        let mut bytes = whole[..body].to_vec();
        bytes[at] = byte;
        verify(&sealed(&bytes))
    };
    let exact = table([1, 0, 0], Rules::A);
    for (at, &was) in whole[..body].iter().enumerate() {
        for byte in [0, 1, 2, 3, 4, 127, 128, 255, was ^ 1, was ^ 2, was ^ 128].into_iter().filter(|&byte| byte != was)
        {
            let Ok(shown) = with(at, byte) else { continue };
            let (position, claim) = shown.split_at(20);
            let value = text::value(exact.record(&read(position.trim_end())));
            let (kind, plies) = value.split_once(' ').unwrap_or((&value, "0"));
            let claims: Vec<&str> = claim.split(' ').collect();
            let (said, within) = (claims[claims.len() - 1].parse().unwrap_or(0), claims.len() == 3);
            assert_eq!(claims[0], kind, "byte {at}: {shown}");
            assert!(
                said == plies.parse::<i32>().unwrap() || within && said > plies.parse().unwrap(),
                "byte {at}: {shown}"
            );
        }
    }
    // An entry of fewer or more plies: the class that then lacks support, 0 where none does.
    for (at, fewer, more) in [
        (30, 282, 0),
        (32, 302, 0),
        (34, 330, 686),
        (36, 362, 666),
        (39, 666, 330),
        (44, 954, 666),
        (46, 974, 0),
        (49, 686, 330),
        (51, 686, 382),
        (53, 686, 462),
        (56, 330, 666),
        (60, 330, 742),
        (64, 330, 774),
        (67, 462, 1414),
    ] {
        for (byte, class) in [(whole[at] - 1, fewer), (whole[at] + 1, more)] {
            let fault = match with(at, byte) {
                Err(Fault::Unsupported(class, _)) => class,
                shown => shown.map_or(1, |_| 0),
            };
            assert_eq!(fault, class, "byte {at} = {byte}");
        }
    }
    for (at, byte, fault) in [
        (0, b'd', "E16"),
        (8, 2, "E32"),
        (9, 3, "E17"),
        (12, 1, "E17"),
        (13, 2, "E27"),
        (15, 9, "E33"),
        (18, 5, "E34"),
        (19, 255, "E34"),
        (18, 0, "E34"),
        (22, 1, "E35"),
        (29, 0, "E36"),
        (31, 0, "E37"),
        (29, 0x7f, "E38"),
        (30, 255, "E42"),
        (30, 0, "E30"),
        (19, 6, "E31"),
        (19, 10, "E31"),
    ] {
        let said = with(at, byte).unwrap_err();
        assert!(said.to_string().starts_with(fault), "byte {at} = {byte}: {said}");
    }
}
