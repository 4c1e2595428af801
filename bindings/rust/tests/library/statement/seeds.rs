//! SHA-256 and the words of a seed.

use labrador::statement::Seed;
use labrador::{sha256, Q};

use super::SEED;

fn hex(bytes: &[u8]) -> String {
    bytes.iter().map(|byte| format!("{byte:02x}")).collect()
}

/// The digests of FIPS 180-4's examples, and of lengths around the blocks' ends by another program.
#[test]
fn known_digests() {
    let told = |message: &[u8]| hex(&sha256(message));
    assert_eq!(told(b""), "e3b0c44298fc1c149afbf4c8996fb92427ae41e4649b934ca495991b7852b855");
    assert_eq!(told(b"abc"), "ba7816bf8f01cfea414140de5dae2223b00361a396177a9cb410ff61f20015ad");
    let two = b"abcdbcdecdefdefgefghfghighijhijkijkljklmklmnlmnomnopnopq";
    assert_eq!(told(two), "248d6a61d20638b8e5c026930c3e6039a33ce45964ff2167f6ecedd419db06c1");
    assert_eq!(told(&[b'a'; 1000000]), "cdc76e5c9914fb9281a1c7e284d73e67f1809a48a497200e046d39ccc7112cd0");
    let lengths = [
        (55, "81afe5b788dc2ce138ff83d9b20164db75a94d75d2b2432eea4a0ef605088c72"),
        (56, "2aba54f0ac632420a2b502431408866e40e1d5e430df4cd822642c78ab2eb9c1"),
        (63, "733d3d4ee79ee67145bf73da13588f6f235d37414fc64b14a2f00f1762792f5e"),
        (64, "79322907b3e9d013d7dc2c2f256674dbf733045cde01df3539271c6f5605feb8"),
        (65, "d85c007c6eb440f085afa2b84f6f2bce4658b240e9f62cb1364bf0485a57e720"),
        (119, "6c87eedf096b345de205b702e5223b73b447a3207791ded3ea007ba15ed6736e"),
        (120, "42500cf6a1e3936d6b9e0bcfe296d654b63255e525487d3634d0b15fde591c4d"),
        (1000, "6b0df76627243d095b0c4400cb658b7e804dd03461cc03aee8fc8fe0bcada168"),
    ];
    for (length, digest) in lengths {
        let message: Vec<u8> = (0..length).map(|k| (7 * k + length) as u8).collect();
        assert_eq!(told(&message), digest, "{length}");
    }
}

#[test]
fn the_words_of_a_seed() {
    let seed: Seed = SEED.parse().unwrap();
    let words: Vec<u32> = seed.words().take(10).collect();
    let first = [15062697, 3179821609, 333630264, 532118224, 2233840268, 19531602, 197456317, 3505661925];
    assert_eq!(words[..8], first);
    assert_eq!(words[8..], [759688964, 1060878296]);
    assert!(seed.words().take(100000).all(|word| word < Q));
}

/// A seed whose third word is 4294967295, which is passed over.
#[test]
fn a_word_at_q_is_passed_over() {
    let seed: Seed = format!("aa0cbf5d{}", "0".repeat(56)).parse().unwrap();
    let words: Vec<u32> = seed.words().take(5).collect();
    assert_eq!(words, [3643184837, 2879949217, 299519887, 3525661941, 3197821447]);
}

#[test]
fn a_seed_is_64_hex_digits() {
    let seed: Seed = SEED.to_uppercase().parse().unwrap();
    assert_eq!(seed.to_string(), SEED);
    assert_eq!(seed.0[..3], [0, 1, 2]);
    for wrong in ["", "0", &SEED[1..], &format!("{SEED}0"), &SEED.replace('1', "-")] {
        assert!(wrong.parse::<Seed>().is_err(), "{wrong}");
    }
}
