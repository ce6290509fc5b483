//! Texts of the kept list, for the kinds A, U and H.
use super::Kept;
use crate::draw::EDGES;

// Split by bars.
const NUMBERS: &str = "0|1|9|10|99|100|199|200|249|250|254|255|256|260|300|999|1000|00|01|001|010|0255|| 1|1 |+1|-1|a|\
    0x1|1e1";
const GROUPS: &str = "0|f|F|g|00|ff|000|0fff|0000|FFFF|ffff|fFfF|00000|10000|fffff|| 1|1 |+1|-1|0x1|G";
const FOURS: &str = "|1|1.2|1.2.3|1.2.3.4|1.2.3.4.5|.1.2.3.4|1.2.3.4.|1..2.3.4|1.2.3.|.1.2.3|...|....|.|1.2.3.4 |\
    \u{20}1.2.3.4|1.2.3.4\n|1.2.3.4\0|1,2,3,4|0.0.0.0|255.255.255.255|127.0.0.1|192.0.2.7|0.0.0.5|1.2.3.4:80|\
    1.2.3.4/24|16909060|1.2.3.4::|::1.2.3.4.5|[1.2.3.4]|1.2.3.4%1|\u{661}.2.3.4|1.2.3.\u{FF14}|999999999999.2.3.4";
const SIXES: &str = ":|::|:::|::::|:1|1:|1:::2|:::1|1:::|1::2::3|::1::|:1::|::1:|1:2:3:4:5:6:7:8:|:1:2:3:4:5:6:7:8|\
    1:2:3:4:5:6:7::|::2:3:4:5:6:7:8|1:2:3:4:5:6:7:8::|1:2:3:4:5::1.2.3.4|1:2:3:4:5:6::1.2.3.4|::ffff:1.2.3.4|::1.2.3|\
    ::1.2.3.4:|::1.2.3.4:5|1.2.3.4::|2001:db8::1|2001:DB8::1|2001:db8::1%eth0|2001:db8::1%|fe80::1%1|[2001:db8::1]|\
    [::1|::1]|::1/128| ::1|::1 |::1\n|2001:db8::1\0|::\u{FF11}|1;2;3;4;5;6;7;8|localhost|example.com|0:0:0:0:0:0:0:0|\
    0:0:0:0:0:0:0:1|ffff:ffff:ffff:ffff:ffff:ffff:ffff:ffff|ffff:ffff:ffff:ffff:ffff:ffff:255.255.255.255|\
    0000:0000:0000:0000:0000:0000:0000:00000";
const HOSTS: &str = "|[|]|[]|][|[[|]]|[[]|[]]|[[]]|[a|a]|[a]|[[a]]|a[]|[]a|[ ]| []|[] |{a}|(a)|[2001:db8::1]|\
    2001:db8::1|[::1|::1]|[1.2.3.4]|example.com|[example.com]|[\0]|[h\u{F6}st]";
const UTF8: &str = "proxy.example|h\u{F6}st|\u{65E5}\u{672C}\u{8A9E}.jp|a\u{1F600}b\u{10FFFF}|\
    \u{D7FF}\u{E000}\u{FFFF}\u{10000}";
const NEARLY_UTF8: &[u8] =
    b"\xC0\x80|\xC1\xBF|\xE0\x80\x80|\xE0\x9F\xBF|\xF0\x80\x80\x80|\xF0\x8F\xBF\xBF|\xED\xA0\x80|\
    \xED\xBF\xBF|\xED\xA0\xBD\xED\xB8\x80|\xF4\x8F\xBF\xBF|\xF4\x90\x80\x80|\xEF\xBB\xBFa|a\x80|\x80a|\xC3\xA9\xC3|\
    \xE2\x82\xAC\xE2\x82|\xF0\x9F\x98\x80\xF0\x9F\x98";

fn split(texts: &[u8]) -> impl Iterator<Item = &[u8]> {
    texts.split(|b| *b == b'|')
}

fn ipv4(list: &mut Kept) {
    for n in NUMBERS.split('|') {
        [format!("{n}.2.3.4"), format!("1.{n}.3.4"), format!("1.2.3.{n}")]
            .iter()
            .for_each(|text| list.text(b'A', text.as_bytes()));
    }
    split(FOURS.as_bytes()).for_each(|text| list.text(b'A', text));
}

// The groups joined, and with `::` before, at every place between, and behind.
fn shortened(list: &mut Kept, groups: &[&str]) {
    list.text(b'A', groups.join(":").as_bytes());
    for at in 0..=groups.len() {
        list.text(b'A', format!("{}::{}", groups[..at].join(":"), groups[at..].join(":")).as_bytes());
    }
}

fn ipv6(list: &mut Kept) {
    let groups = ["1", "20", "300", "4000", "a", "Bc", "dEf", "FFFF", "9"];
    (1..=9).for_each(|n| shortened(list, &groups[..n]));
    // with an IPv4 tail
    (0..=7).for_each(|n| shortened(list, &[&groups[..n], &["192.0.2.33"]].concat()));
    // IPv4 text at every other place
    for at in 0..6 {
        let mut parts = ["1", "2", "3", "4", "5", "6", "7"];
        parts[at] = "1.2.3.4";
        list.text(b'A', parts.join(":").as_bytes());
    }
    for g in GROUPS.split('|') {
        let places = ["*:2:3:4:5:6:7:8", "1:2:3:4:*:6:7:8", "1:2:3:4:5:6:7:*", "::*", "*::"];
        places.iter().for_each(|text| list.text(b'A', text.replace('*', g).as_bytes()));
    }
    for n in ["0", "255", "256", "00", "01", "", "a"] {
        ["::*.2.3.4", "1:2:3:4:5:6:1.2.3.*"].iter().for_each(|text| list.text(b'A', text.replace('*', n).as_bytes()));
    }
    split(SIXES.as_bytes()).chain([&b"\xFF::1"[..], b"::1\x80"]).for_each(|text| list.text(b'A', text));
}

// A byte dropped, doubled and changed at every place of good texts.
fn damaged(list: &mut Kept) {
    for text in [&b"10.0.255.1"[..], b"2001:db8::a:7", b"::ffff:192.0.2.1"] {
        for i in 0..text.len() {
            let (before, behind) = (&text[..i], &text[i + 1..]);
            let there = [&[][..], &[text[i], text[i]], b"0", b".", b":"];
            there.iter().for_each(|there| list.text(b'A', &[before, there, behind].concat()));
        }
    }
}

fn utf8(list: &mut Kept) {
    list.text(b'U', b"");
    for a in EDGES {
        [&[a][..], &[b'x', a]].iter().for_each(|text| list.text(b'U', text));
        if a < 0xC0 {
            continue;
        }
        // each lead byte with too few tails, with the right number, and with one more
        for tails in [&[0x80][..], &[0x80, 0xBF], &[0xBF, 0x80, 0x80], &[0x80, 0x80, 0x80, 0x80]] {
            list.text(b'U', &[&[a], tails].concat());
        }
        // each class in each later position
        let more = if a < 0xE0 { 0 } else { 1 + usize::from(a >= 0xF0) };
        EDGES.iter().for_each(|b| list.text(b'U', &[&[a, *b], &[0x80, 0xBF][..more]].concat()));
    }
    for b in EDGES {
        for start in [&b"\xE0\xA0"[..], b"\xE1\x80", b"\xED\x9F", b"\xF0\x90\x80", b"\xF1\x80\xBF", b"\xF4\x8F\x80"] {
            list.text(b'U', &[start, &[b]].concat());
        }
        list.text(b'U', &[0xF1, 0xBF, b, 0x80]);
    }
    split(NEARLY_UTF8).for_each(|text| list.text(b'U', text));
    for text in split(UTF8.as_bytes()) {
        list.text(b'U', text);
        (0..text.len()).for_each(|i| list.text(b'U', &[&text[..i], &text[i + 1..]].concat()));
    }
    list.text(b'U', "\u{20AC}".repeat(100).as_bytes());
    list.text(b'U', &"\u{20AC}".repeat(100).as_bytes()[..299]);
}

fn hosts(list: &mut Kept) {
    let others = [&b"[\xFF\xFE]"[..], b"\xFF[a]", &[b'x'; 300], &[&b"["[..], &[0xEE; 300], b"]"].concat()];
    split(HOSTS.as_bytes()).chain(others).for_each(|text| list.text(b'H', text));
}

pub fn add(list: &mut Kept) {
    [ipv4, ipv6, damaged, utf8, hosts].iter().for_each(|part| part(list));
}
