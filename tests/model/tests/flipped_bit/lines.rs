//! LINE-14: the field after the letter of a correction.

use model::lines::run;

/// Bits with one digit and with two, at the ends of both, and at the end of the
/// data bits; with what is printed for them.
const PRINTED: [(u8, &str); 6] = [
    (0, "0"),
    (9, "9"),
    (10, "10"),
    (63, "63"),
    (64, "64"),
    (71, "71"),
];

/// Each line of input, after the set-up, and what it prints.
fn prints(lines: &[(&str, &str)]) {
    let set_up = "c,a0,01\nc,f2,08\n";
    let lines_in: String = lines.iter().map(|(line, _)| format!("{line}\n")).collect();
    let mut output = Vec::new();
    run(format!("{set_up}{lines_in}").as_bytes(), &mut output).unwrap();
    let output = String::from_utf8(output).unwrap();
    let printed: Vec<&str> = output.lines().skip(2).collect();
    assert_eq!(printed.len(), lines.len());
    for ((line, expected), printed) in lines.iter().zip(printed) {
        assert_eq!(printed, *expected, "{line}");
    }
}

/// Bit 2 is that of EX-10.
#[test]
fn lines_written_out() {
    prints(&[
        ("w,00000010,8000000000000000", "w,0,p"),
        ("f,00000010,2", "f,0"),
        ("r,00000010,8", "r,0,c,2,8000000000000000"),
        ("r,00000013,1", "r,0,c,2,00"),
        ("r,0000000f,2", "r,0,n,c,2,0080"),
        ("s,00000010", "s,0,c,2"),
        ("s,00000010", "s,0,n"),
        ("f,00000000,71", "f,0"),
        ("s,00000000", "s,0,c,71"),
        ("f,00000000,5", "f,0"),
        ("w,00000000,00", "w,0,c,5"),
        ("w,00000000,00", "w,0,n"),
        ("f,00000000,5", "f,0"),
        ("r,00000007,2", "r,0,c,5,n,0000"),
        ("r,00000006,8", "r,0,c,5,n,0000000000000000"),
        ("f,00000008,70", "f,0"),
        ("r,00000007,2", "r,0,c,5,c,70,0000"),
        ("w,00000007,a1b2", "w,0,c,5,c,70"),
        ("r,00000006,4", "r,0,n,n,00a1b200"),
        ("g,b8", "g,0,0c"),
    ]);
}

#[test]
fn bits_of_one_digit_and_of_two() {
    for (bit, printed) in PRINTED {
        let flip = format!("f,00000020,{bit}");
        let flip = (flip.as_str(), "f,0");
        let eight = format!("r,0,c,{printed},0000000000000000");
        let one = format!("r,0,c,{printed},00");
        let lower = format!("r,0,c,{printed},n,0000");
        let upper = format!("r,0,n,c,{printed},0000");
        prints(&[
            flip,
            ("r,00000020,8", &eight),
            ("r,00000025,1", &one),
            ("r,00000027,2", &lower),
            ("r,0000001f,2", &upper),
            ("w,00000020,00", &format!("w,0,c,{printed}")),
            flip,
            ("s,00000027", &format!("s,0,c,{printed}")),
            flip,
            ("w,00000027,0000", &format!("w,0,c,{printed},n")),
            flip,
            ("w,0000001f,0000", &format!("w,0,n,c,{printed}")),
            ("r,00000020,8", "r,0,n,0000000000000000"),
        ]);
    }
}

/// Both fields of a split, each after its own letter.
#[test]
fn two_bits_of_a_split() {
    for (lower, first) in PRINTED {
        for (upper, second) in PRINTED {
            let fields = format!("c,{first},c,{second}");
            prints(&[
                (&format!("f,00000020,{lower}"), "f,0"),
                (&format!("f,00000028,{upper}"), "f,0"),
                ("r,00000021,8", &format!("r,0,{fields},{}", "00".repeat(8))),
                ("r,00000027,2", &format!("r,0,{fields},0000")),
                ("w,00000026,000000", &format!("w,0,{fields}")),
                ("w,00000026,000000", "w,0,n,n"),
            ]);
        }
    }
}

/// The digits as one would write them, for all of the bits.
#[test]
fn every_bit_is_printed_in_decimal() {
    for tens in 0..8_u8 {
        for units in (0..10).take_while(|units| 10 * tens + units < 72) {
            let digits: String = match tens {
                0 => char::from(b'0' + units).into(),
                _ => [b'0' + tens, b'0' + units].map(char::from).iter().collect(),
            };
            prints(&[
                (&format!("f,00000000,{digits}"), "f,0"),
                ("s,00000000", &format!("s,0,c,{digits}")),
            ]);
        }
    }
}

/// No other answer has the field, though a bit is wrong beside it or was.
#[test]
fn other_answers_have_no_field() {
    prints(&[
        ("f,00000000,7", "f,0"),
        ("f,00000000,12", "f,0"),
        ("s,00000000", "s,0,u"),
        ("r,00000000,1", "r,0,u,01"),
        ("w,00000000,ff", "w,0,u"),
        ("f,00000008,33", "f,0"),
        ("r,00000007,2", "r,0,u,c,33,0000"),
        ("w,00000007,0000", "w,0,u,c,33"),
        ("r,00000007,2", "r,0,u,n,0000"),
        ("w,00000000,0000000000000000", "w,0,p"),
        ("s,00000000", "s,0,n"),
        ("s,00100000", "s,0,e"),
        ("r,00100000,2", "r,0,e,ffff"),
        ("w,00100000,00", "w,0,e"),
    ]);
}
