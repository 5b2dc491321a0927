//! Long banks in the line program, of whose cells 7,280 are lent.

use model::lines;

/// Each line with what it prints.
fn prints(pairs: &[(&str, &str)]) {
    let (input, expected): (Vec<&str>, Vec<&str>) = pairs.iter().copied().unzip();
    let mut output = Vec::new();
    lines::run(input.join("\n").as_bytes(), &mut output).unwrap();
    let output = String::from_utf8(output).unwrap();
    let printed: Vec<&str> = output.lines().collect();
    assert_eq!(printed, expected);
}

/// MB 0 to 128. MB 128 begins with cell 2^24, not with cell 0.
#[test]
fn a_bank_of_129_megabytes() {
    prints(&[
        ("c,90,80", "c,0"),
        ("c,f0,03", "c,0"),
        ("c,a0,01", "c,0"),
        ("c,f2,08", "c,0"),
        ("w,00000000,0102030405060708", "w,0,p"),
        ("r,00000000,8", "r,0,n,0102030405060708"),
        ("r,08000000,1", "r,9"),
        ("w,08000000,00", "w,9"),
        ("f,08000000,0", "f,9"),
        ("s,080fffff", "s,9"),
        ("r,08100000,1", "r,0,e,ff"),
        ("f,08100000,0", "f,10"),
    ]);
}

/// MB 200 to 328: address 10000000, which is 256 MB, has cell 0. Cell 7279 is
/// 7279 * 8 = e378 above. The doubleword before it has cell 2^25 - 1.
#[test]
fn rows_begin_again_at_256_megabytes() {
    prints(&[
        ("c,85,c8", "c,0"),
        ("c,95,48", "c,0"),
        ("c,9d,01", "c,0"),
        ("c,f1,0c", "c,0"),
        ("c,a0,20", "c,0"),
        ("c,f2,08", "c,0"),
        ("w,10000000,0102030405060708", "w,0,p"),
        ("f,10000000,3", "f,0"),
        ("r,10000006,2", "r,0,c,3,0708"),
        ("s,10000000", "s,0,c,3"),
        ("s,10000000", "s,0,n"),
        ("r,1000e378,1", "r,0,n,00"),
        ("r,1000e380,1", "r,9"),
        ("r,0ffffffc,8", "r,9"),
        ("r,0c800000,1", "r,9"),
        ("r,0c7fffff,1", "r,0,e,ff"),
        ("r,148fffff,1", "r,9"),
        ("r,14900000,1", "r,0,e,ff"),
    ]);
}

/// Bank 2 from MB 200: 128, 256 and 257 MB end at MB 327, 455 and 456. MB 256
/// has cell 0 with 128 MB and with 256. MB 384 is in the bank with 256 alone and
/// has cell 2^24.
#[test]
fn up_to_256_megabytes() {
    prints(&[
        ("c,82,c8", "c,0"),
        ("c,9a,01", "c,0"),
        ("c,f0,30", "c,0"),
        ("c,a0,04", "c,0"),
        ("c,92,47", "c,0"),
        ("c,f2,08", "c,0"),
        ("r,10000000,1", "r,0,n,00"),
        ("r,18000000,1", "r,0,e,ff"),
        ("c,f2,00", "c,0"),
        ("c,92,c8", "c,0"),
        ("c,f2,08", "c,13"),
        ("r,10000000,1", "r,5"),
        ("c,92,c7", "c,0"),
        ("c,f2,08", "c,0"),
        ("r,10000000,1", "r,0,n,00"),
        ("r,18000000,1", "r,9"),
        ("r,1c7fffff,1", "r,9"),
        ("r,1c800000,1", "r,0,e,ff"),
    ]);
}
