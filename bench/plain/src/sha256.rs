//! SHA-256 of FIPS 180-4, without the CPU's SHA instructions: the proved code has none either.

pub const DIGEST: usize = 32;
pub type Digest = [u8; DIGEST];
pub(crate) type State = [u32; 8];

pub(crate) const INITIAL: State = [
    0x6a09e667, 0xbb67ae85, 0x3c6ef372, 0xa54ff53a, 0x510e527f, 0x9b05688c, 0x1f83d9ab, 0x5be0cd19,
];

const K: [u32; 64] = [
    0x428a2f98, 0x71374491, 0xb5c0fbcf, 0xe9b5dba5, 0x3956c25b, 0x59f111f1, 0x923f82a4, 0xab1c5ed5,
    0xd807aa98, 0x12835b01, 0x243185be, 0x550c7dc3, 0x72be5d74, 0x80deb1fe, 0x9bdc06a7, 0xc19bf174,
    0xe49b69c1, 0xefbe4786, 0x0fc19dc6, 0x240ca1cc, 0x2de92c6f, 0x4a7484aa, 0x5cb0a9dc, 0x76f988da,
    0x983e5152, 0xa831c66d, 0xb00327c8, 0xbf597fc7, 0xc6e00bf3, 0xd5a79147, 0x06ca6351, 0x14292967,
    0x27b70a85, 0x2e1b2138, 0x4d2c6dfc, 0x53380d13, 0x650a7354, 0x766a0abb, 0x81c2c92e, 0x92722c85,
    0xa2bfe8a1, 0xa81a664b, 0xc24b8b70, 0xc76c51a3, 0xd192e819, 0xd6990624, 0xf40e3585, 0x106aa070,
    0x19a4c116, 0x1e376c08, 0x2748774c, 0x34b0bcb5, 0x391c0cb3, 0x4ed8aa4a, 0x5b9cca4f, 0x682e6ff3,
    0x748f82ee, 0x78a5636f, 0x84c87814, 0x8cc70208, 0x90befffa, 0xa4506ceb, 0xbef9a3f7, 0xc67178f2,
];

/// SHA-256 of `data`.
pub fn digest(data: &[u8]) -> Digest {
    finish(INITIAL, 0, data)
}

/// The digest of `before` bytes already in `state` (whole blocks), followed by `data`.
pub(crate) fn finish(mut state: State, before: usize, data: &[u8]) -> Digest {
    let whole = data.len() & !63;
    let (blocks, rest) = data.split_at(whole);
    if whole != 0 {
        compress(&mut state, blocks);
    }
    let mut tail = [0u8; 128];
    tail[..rest.len()].copy_from_slice(rest);
    tail[rest.len()] = 0x80;
    let end = if rest.len() < 56 { 64 } else { 128 };
    let bits = ((before + data.len()) as u64) << 3;
    tail[end - 8..end].copy_from_slice(&bits.to_be_bytes());
    compress(&mut state, &tail[..end]);

    let mut out = [0u8; 32];
    for (bytes, word) in out.chunks_exact_mut(4).zip(state) {
        bytes.copy_from_slice(&word.to_be_bytes());
    }
    out
}

/// Takes whole blocks into the state.
#[inline]
pub(crate) fn compress(state: &mut State, blocks: &[u8]) {
    for block in blocks.chunks_exact(64) {
        compress_block(state, block.try_into().unwrap());
    }
}

/// One step; the caller turns the eight names instead of moving the values.
macro_rules! step {
    ($a:ident $b:ident $c:ident $d:ident $e:ident $f:ident $g:ident $h:ident, $k:expr, $w:expr) => {
        let s1 = $e.rotate_right(6) ^ $e.rotate_right(11) ^ $e.rotate_right(25);
        let choice = $g ^ ($e & ($f ^ $g));
        let t1 = $h.wrapping_add($k.wrapping_add($w)).wrapping_add(s1).wrapping_add(choice);
        let s0 = $a.rotate_right(2) ^ $a.rotate_right(13) ^ $a.rotate_right(22);
        let majority = ($a & $b) | ($c & ($a | $b));
        $d = $d.wrapping_add(t1);
        $h = t1.wrapping_add(s0).wrapping_add(majority);
    };
}

/// Schedule word i of the first sixteen.
#[inline(always)]
fn first(w: &mut [u32; 16], i: usize) -> u32 {
    w[i]
}

/// Replaces schedule word i by the one sixteen further on.
#[inline(always)]
fn next(w: &mut [u32; 16], i: usize) -> u32 {
    let (x, y) = (w[(i + 1) & 15], w[(i + 14) & 15]);
    let s0 = x.rotate_right(7) ^ x.rotate_right(18) ^ (x >> 3);
    let s1 = y.rotate_right(17) ^ y.rotate_right(19) ^ (y >> 10);
    w[i] = w[i].wrapping_add(s0).wrapping_add(w[(i + 9) & 15]).wrapping_add(s1);
    w[i]
}

macro_rules! sixteen_steps {
    ($a:ident $b:ident $c:ident $d:ident $e:ident $f:ident $g:ident $h:ident, $i:expr, $w:ident, $word:ident) => {
        step!($a $b $c $d $e $f $g $h, K[$i], $word(&mut $w, 0));
        step!($h $a $b $c $d $e $f $g, K[$i + 1], $word(&mut $w, 1));
        step!($g $h $a $b $c $d $e $f, K[$i + 2], $word(&mut $w, 2));
        step!($f $g $h $a $b $c $d $e, K[$i + 3], $word(&mut $w, 3));
        step!($e $f $g $h $a $b $c $d, K[$i + 4], $word(&mut $w, 4));
        step!($d $e $f $g $h $a $b $c, K[$i + 5], $word(&mut $w, 5));
        step!($c $d $e $f $g $h $a $b, K[$i + 6], $word(&mut $w, 6));
        step!($b $c $d $e $f $g $h $a, K[$i + 7], $word(&mut $w, 7));
        step!($a $b $c $d $e $f $g $h, K[$i + 8], $word(&mut $w, 8));
        step!($h $a $b $c $d $e $f $g, K[$i + 9], $word(&mut $w, 9));
        step!($g $h $a $b $c $d $e $f, K[$i + 10], $word(&mut $w, 10));
        step!($f $g $h $a $b $c $d $e, K[$i + 11], $word(&mut $w, 11));
        step!($e $f $g $h $a $b $c $d, K[$i + 12], $word(&mut $w, 12));
        step!($d $e $f $g $h $a $b $c, K[$i + 13], $word(&mut $w, 13));
        step!($c $d $e $f $g $h $a $b, K[$i + 14], $word(&mut $w, 14));
        step!($b $c $d $e $f $g $h $a, K[$i + 15], $word(&mut $w, 15));
    };
}

fn compress_block(state: &mut State, block: &[u8; 64]) {
    let mut w = [0u32; 16];
    for (word, bytes) in w.iter_mut().zip(block.chunks_exact(4)) {
        *word = u32::from_be_bytes(bytes.try_into().unwrap());
    }
    let [mut a, mut b, mut c, mut d, mut e, mut f, mut g, mut h] = *state;
    sixteen_steps!(a b c d e f g h, 0, w, first);
    sixteen_steps!(a b c d e f g h, 16, w, next);
    sixteen_steps!(a b c d e f g h, 32, w, next);
    sixteen_steps!(a b c d e f g h, 48, w, next);
    for (word, add) in state.iter_mut().zip([a, b, c, d, e, f, g, h]) {
        *word = word.wrapping_add(add);
    }
}

#[cfg(test)]
mod tests {
    use super::*;

    fn hex(d: Digest) -> String {
        d.iter().map(|b| format!("{b:02x}")).collect()
    }

    #[test]
    fn fips_180_4() {
        assert_eq!(hex(digest(b"abc")), "ba7816bf8f01cfea414140de5dae2223b00361a396177a9cb410ff61f20015ad");
        assert_eq!(hex(digest(b"")), "e3b0c44298fc1c149afbf4c8996fb92427ae41e4649b934ca495991b7852b855");
        assert_eq!(
            hex(digest(b"abcdbcdecdefdefgefghfghighijhijkijkljklmklmnlmnomnopnopq")),
            "248d6a61d20638b8e5c026930c3e6039a33ce45964ff2167f6ecedd419db06c1"
        );
        assert_eq!(
            hex(digest(&vec![b'a'; 1_000_000])),
            "cdc76e5c9914fb9281a1c7e284d73e67f1809a48a497200e046d39ccc7112cd0"
        );
    }
}
