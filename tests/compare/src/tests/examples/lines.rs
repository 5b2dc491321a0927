//! Lines of `busline` and what they print, worked out by hand.

use model::lines;

use crate::busline::{Busline, Feed};

/// EX-10: the example of the line program.
const LINES: (&str, &str) = (
    "c,90,01\nc,a0,01\nc,f2,08\nw,00000010,8000000000000000\nf,00000010,2\n\
     r,00000010,8\ng,b8\nr,00200000,1\nr,00000007,2\n",
    "c,0\nc,0\nc,0\nw,0,p\nf,0\nr,0,c,2,8000000000000000\ng,0,01\nr,0,e,ff\nr,0,n,n,0000\n",
);

/// Bank 0 is MB 0.
const SWITCHED_ON: (&str, &str) = ("c,a0,01\nc,f2,08\n", "c,0\nc,0\n");

/// Flip bits of one and of two digits, at both ends of the data bits and of the
/// check bits.
const BITS: [u8; 10] = [0, 7, 8, 9, 10, 11, 55, 63, 64, 71];

/// LINE-14: splits of which the first access is corrected, the second, or both,
/// beside accesses of the other kinds. The letter of a correction alone is
/// followed by a bit.
const SPLITS: (&str, &str) = (
    "w,00000010,0102030405060708\nw,00000018,1112131415161718\n\
     f,00000010,5\nr,00000016,4\nr,00000011,8\nw,00000016,aabbccdd\nr,00000016,4\n\
     f,00000018,70\nr,00000017,2\nw,00000017,eeff\nr,00000010,8\nr,00000018,8\n\
     f,00000010,5\nf,00000018,70\nr,00000014,5\nw,00000013,2021222324252627\nr,00000013,8\n\
     f,00000010,71\nf,00000018,0\nf,00000018,64\nr,00000017,2\nw,00000017,0000\ns,00000010\n\
     f,00000018,64\nf,00000010,12\nf,00000010,13\nr,00000017,2\ns,00000018\n",
    "w,0,p\nw,0,p\n\
     f,0\nr,0,c,5,n,07081112\nr,0,c,5,n,0203040506070811\nw,0,c,5,n\nr,0,n,n,aabbccdd\n\
     f,0\nr,0,n,c,70,bbcc\nw,0,n,c,70\nr,0,n,010203040506aaee\nr,0,n,ffdd131415161718\n\
     f,0\nf,0\nr,0,c,5,c,70,0506aaeeff\nw,0,c,5,c,70\nr,0,n,n,2021222324252627\n\
     f,0\nf,0\nf,0\nr,0,c,71,u,24a5\nw,0,c,71,u\ns,0,n\n\
     f,0\nf,0\nf,0\nr,0,u,c,0,0025\ns,0,c,0\n",
);

/// The longest line that is printed: both accesses of a read of eight bytes are
/// corrected at bits of two digits.
const LONGEST: (&str, &str) = (
    "f,00000010,63\nf,00000018,71\nr,00000013,8\n",
    "f,0\nf,0\nr,0,c,63,c,71,0000000000000000\n",
);

pub fn lines(busline: &Busline) -> Result<String, String> {
    check_lines(busline, LINES)?;
    Ok("the specification".to_string())
}

/// LINE-14: a correction prints its bit.
pub fn lines_with_bits(busline: &Busline) -> Result<String, String> {
    for bit in BITS {
        let (input, output) = single_calls(bit);
        check_lines_when_on(busline, (&input, &output))?;
    }
    check_lines_when_on(busline, SPLITS)?;
    check_lines_when_on(busline, LONGEST)?;
    Ok(format!("{} bits, and splits", BITS.len()))
}

/// A read, a short write and a scrub that are corrected at this bit, and what
/// is printed once there is nothing to correct.
fn single_calls(bit: u8) -> (String, String) {
    let flip = format!("f,00000020,{bit}\n");
    let input = format!(
        "{flip}r,00000020,8\nr,00000023,1\nw,00000020,00\nw,00000020,00\n\
         {flip}s,00000024\ns,00000024\nr,00000027,1\n"
    );
    let output = format!(
        "f,0\nr,0,c,{bit},0000000000000000\nr,0,c,{bit},00\nw,0,c,{bit}\nw,0,n\n\
         f,0\ns,0,c,{bit}\ns,0,n\nr,0,n,00\n"
    );
    (input, output)
}

fn check_lines_when_on(busline: &Busline, (input, output): (&str, &str)) -> Result<(), String> {
    let (on, accepted) = SWITCHED_ON;
    check_lines(
        busline,
        (&format!("{on}{input}"), &format!("{accepted}{output}")),
    )
}

pub fn check_lines(busline: &Busline, (input, expected): (&str, &str)) -> Result<(), String> {
    let mut from_model = Vec::new();
    lines::run(input.as_bytes(), &mut from_model).expect("neither end can fail");
    let from_busline = busline.run(input.as_bytes(), Feed::Whole)?;
    for (side, output) in [("busline", from_busline), ("the model", from_model)] {
        if output != expected.as_bytes() {
            let shown = output.escape_ascii();
            return Err(format!("{input:?}: {side} prints \"{shown}\""));
        }
    }
    Ok(())
}
