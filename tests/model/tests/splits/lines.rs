//! LINE-14: both letters of a split.

use model::lines::run;

/// Each line of input and what it prints.
fn prints(lines: &[(&str, &str)]) {
    let input: String = lines.iter().map(|(line, _)| format!("{line}\n")).collect();
    let mut output = Vec::new();
    run(input.as_bytes(), &mut output).unwrap();
    let output = String::from_utf8(output).unwrap();
    assert_eq!(output.lines().count(), lines.len());
    for ((line, expected), printed) in lines.iter().zip(output.lines()) {
        assert_eq!(printed, *expected, "{line}");
    }
}

#[test]
fn both_letters_come_before_the_bytes() {
    prints(&[
        ("c,a0,01", "c,0"),
        ("r,00000007,2", "r,5"),
        ("c,f2,08", "c,0"),
        ("r,00000007,2", "r,0,n,n,0000"),
        ("f,00000008,0", "f,0"),
        ("r,00000005,8", "r,0,n,c,0,0000000000000000"),
        ("w,00000007,a1b2", "w,0,n,c,0"),
        ("r,00000006,4", "r,0,n,n,00a1b200"),
        ("f,00000000,5", "f,0"),
        ("f,00000000,6", "f,0"),
        ("w,00000001,0102030405060708", "w,0,u,n"),
        // The lower bytes as stored, the upper ones as written.
        ("r,00000001,8", "r,0,u,n,000000000000a108"),
        ("r,00000000,1", "r,0,u,06"),
        ("s,00000007", "s,0,u"),
        ("w,00000008,1122334455667788", "w,0,p"),
        ("r,00000001,7", "r,0,u,000000000000a1"),
    ]);
}

/// Cell 7279 is the last that is lent; the bank ends before MB 1.
#[test]
fn splits_at_the_end_of_cells_banks_and_addresses() {
    prints(&[
        ("c,80,01", "c,0"),
        ("c,90,01", "c,0"),
        ("c,a0,01", "c,0"),
        ("c,c0,20", "c,0"),
        ("c,f2,08", "c,0"),
        ("r,0010e377,2", "r,0,n,n,0000"),
        ("r,0010e37f,2", "r,9"),
        ("w,0010e379,0102030405060708", "w,9"),
        ("r,0010e378,8", "r,0,n,0000000000000000"),
        ("g,c1", "g,0,00"),
        ("w,000fffff,0102", "w,0,e,n"),
        ("g,c8", "g,0,ff"),
        ("g,c9", "g,0,ff"),
        ("g,ca", "g,0,0f"),
        ("r,000ffffe,3", "r,0,e,n,ffff02"),
        ("r,001fffff,2", "r,9"),
        ("r,00200007,2", "r,0,e,e,ffff"),
        ("w,fffffff7,0102", "w,0,e,e"),
        ("r,fffffff8,8", "r,0,e,ffffffffffffffff"),
        ("r,fffffff9,8", "r,7"),
        ("w,ffffffff,0102", "w,7"),
        ("r,ffffffff,9", "r,6"),
    ]);
}
