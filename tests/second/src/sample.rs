//! The document's sample score S.

pub const S: [u32; 9] = [
    0x1000_0403,
    0xB000_0302,
    0x5000_0002,
    0x7000_0400,
    0xA000_0000,
    0x8000_0002,
    0x6000_0C01,
    0x3000_0004,
    0x2003_0200,
];

/// A score with some of its words replaced.
pub fn replaced(score: &[u32], words: &[(usize, u32)]) -> Vec<u32> {
    let mut score = score.to_vec();
    for &(at, word) in words {
        score[at] = word;
    }
    score
}

/// S with a fault for each number from 1 to 7, and the value that is answered with it.
pub fn faulty() -> [(Vec<u32>, u32, u64); 7] {
    let with = |at, word| replaced(&S, &[(at, word)]);
    [
        (vec![], 1, 0),
        (with(0, 0), 2, 0),
        (S[..7].to_vec(), 3, 0),
        (with(2, S[8]), 4, 2),
        (with(8, 0x2004_0200), 5, 8),
        (with(7, 0x3000_0005), 6, 7),
        (with(5, 0x6000_0801), 7, 0),
    ]
}
