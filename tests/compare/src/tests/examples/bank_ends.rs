//! Banks that end at MB 255, 256 and 1023, where an end in eight bits would go
//! wrong, some of them with thirteen row bits.

use super::lines::check_lines;
use super::sides::Sides;
use crate::busline::Busline;

/// A bank alone, by its start, last MB and row code, with the places of its
/// first and last byte.
struct End {
    start_mb: u32,
    last_mb: u32,
    row_code: u8,
    first: [u32; 3],
    last: [u32; 3],
}

/// Row, column and cell number, worked out by hand.
const ENDS: [End; 13] = [
    end(255, 255, 0, [0, 0, 0], [511, 255, 131_071]),
    end(255, 256, 0, [256, 0, 131_072], [255, 511, 131_071]),
    end(254, 255, 1, [0, 0, 0], [1023, 255, 262_143]),
    end(128, 255, 3, [0, 0, 0], [4095, 4095, 16_777_215]),
    end(256, 256, 0, [0, 0, 0], [511, 255, 131_071]),
    end(129, 256, 3, [32, 0, 131_072], [31, 4095, 131_071]),
    end(1, 256, 3, [32, 0, 131_072], [31, 4095, 131_071]),
    end(127, 255, 3, [4064, 0, 16_646_144], [8191, 4095, 33_554_431]),
    end(
        895,
        1023,
        3,
        [4064, 0, 16_646_144],
        [8191, 4095, 33_554_431],
    ),
    end(768, 1023, 3, [0, 0, 0], [8191, 4095, 33_554_431]),
    end(1023, 1023, 0, [0, 0, 0], [511, 255, 131_071]),
    end(1020, 1023, 1, [0, 0, 0], [1023, 511, 524_287]),
    end(896, 1023, 3, [0, 0, 0], [4095, 4095, 16_777_215]),
];

const fn end(start_mb: u32, last_mb: u32, row_code: u8, first: [u32; 3], last: [u32; 3]) -> End {
    End {
        start_mb,
        last_mb,
        row_code,
        first,
        last,
    }
}

/// A bank of one MB that ends at MB 255, 256 and 1023: its first and last
/// byte are in it, the bytes beside it are not.
const LINES_AT_ENDS: [(&str, &str); 3] = [
    (
        "c,80,ff\nc,90,ff\nc,a0,01\nc,f2,08\nw,0ff00000,0102030405060708\nr,0ff00000,8\n\
         r,0fffffff,1\nr,0fefffff,1\nr,10000000,1\nr,00000000,1\n",
        "c,0\nc,0\nc,0\nc,0\nw,0,p\nr,0,n,0102030405060708\nr,9\nr,0,e,ff\nr,0,e,ff\nr,0,e,ff\n",
    ),
    (
        "c,88,01\nc,98,01\nc,a0,01\nc,f2,08\nw,10000000,0102030405060708\nr,10000000,8\n\
         r,100fffff,1\nr,0fffffff,1\nr,10100000,1\nr,00000000,1\n",
        "c,0\nc,0\nc,0\nc,0\nw,0,p\nr,0,n,0102030405060708\nr,9\nr,0,e,ff\nr,0,e,ff\nr,0,e,ff\n",
    ),
    (
        "c,80,ff\nc,88,03\nc,90,ff\nc,98,03\nc,a0,01\nc,f2,08\nw,3ff00000,0102030405060708\n\
         r,3ff00000,8\nr,3fffffff,1\nr,3fefffff,1\nr,40000000,1\nr,7ff00000,1\n",
        "c,0\nc,0\nc,0\nc,0\nc,0\nc,0\nw,0,p\nr,0,n,0102030405060708\nr,9\n\
         r,0,e,ff\nr,0,e,ff\nr,0,e,ff\n",
    ),
];

/// EX-11, REG-5: banks that end at MB 255, 256 and 1023.
pub fn bank_ends(busline: &Busline) -> Result<String, String> {
    for end in &ENDS {
        for bank in [0, 5] {
            let (start, last) = (end.start_mb, end.last_mb);
            check_end(end, bank)
                .map_err(|error| format!("bank {bank} from MB {start} to {last}, {error}"))?;
        }
    }
    for lines in LINES_AT_ENDS {
        check_lines(busline, lines)?;
    }
    Ok(format!(
        "{} banks, {} scripts",
        2 * ENDS.len(),
        LINES_AT_ENDS.len()
    ))
}

fn check_end(end: &End, bank: u8) -> Result<(), String> {
    let [start_low, start_high, ..] = end.start_mb.to_le_bytes();
    let [last_low, last_high, ..] = end.last_mb.to_le_bytes();
    let mut sides = Sides::with(
        0,
        &[
            (0x80 + bank, start_low),
            (0x88 + bank, start_high),
            (0x90 + bank, last_low),
            (0x98 + bank, last_high),
            (0xA0, 1 << bank),
            (0xF0 + bank / 4, end.row_code << (2 * (bank % 4))),
            (0xF2, 8),
        ],
    )?;
    let first = end.start_mb << 20;
    let last = ((end.last_mb + 1) << 20) - 1;
    for (address, [row, column, cell]) in [(first, end.first), (last, end.last)] {
        sides.place(address, [u32::from(bank), row, column, cell])?;
        sides.back(u32::from(bank), row, column, address & !7)?;
    }
    sides.no_bank(first - 1)?;
    sides.no_bank(last + 1)?;
    sides.no_bank(first & 0x0FFF_FFFF | 0x4000_0000)
}
