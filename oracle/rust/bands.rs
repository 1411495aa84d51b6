// The tables as published, but for the rows of 22.05, 24 and 16 kHz: those of 13818-3, Table B.2 (long and short). A name
// that is declared here goes before the same name of the published file.
pub use self::published::*;

pub const SCALE_FACTOR_BAND_INDICES: [([u32; 23], [u32; 14]); 9] = {
    let p = self::published::SCALE_FACTOR_BAND_INDICES;
    [
        p[0],
        p[1],
        p[2],
        (
            [
                0, 6, 12, 18, 24, 30, 36, 44, 54, 66, 80, 96, 116, 140, 168, 200, 238, 284, 336, 396, 464, 522, 576,
            ],
            [0, 4, 8, 12, 18, 24, 32, 42, 56, 74, 100, 132, 174, 192],
        ),
        (
            [
                0, 6, 12, 18, 24, 30, 36, 44, 54, 66, 80, 96, 114, 136, 162, 194, 232, 278, 332, 394, 464, 540, 576,
            ],
            [0, 4, 8, 12, 18, 26, 36, 48, 62, 80, 104, 136, 180, 192],
        ),
        (
            [
                0, 6, 12, 18, 24, 30, 36, 44, 54, 66, 80, 96, 116, 140, 168, 200, 238, 284, 336, 396, 464, 522, 576,
            ],
            [0, 4, 8, 12, 18, 26, 36, 48, 62, 80, 104, 134, 174, 192],
        ),
        p[6],
        p[7],
        p[8],
    ]
};
