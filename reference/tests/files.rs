//! Files refused 5, 6 and 7, and files at the limits.

mod common;
use common::*;

fn changed(mut file: Vec<u8>, at: usize, to: u8) -> Vec<u8> {
    assert_ne!(file[at], to);
    file[at] = to;
    file
}

#[test]
fn refused_5_size_or_letters() {
    assert_eq!(report(b""), "file 5\n");
    assert_eq!(report(b"SCAP"), "file 5\n");
    let file = file([64; 4], &[(12, 0, 0, 64)]);
    for length in 0..26 {
        assert_eq!(report(&file[..length]), "file 5\n");
    }
    for at in 0..4 {
        assert_eq!(report(&changed(file.clone(), at, b'x')), "file 5\n");
    }
    // The letters come before the contents and the legs.
    assert_eq!(report(&[0; 26]), "file 5\n");
}

#[test]
fn longest_file_and_one_byte_more() {
    let mut longest = file([64; 4], &[(12, 0, 0, 64); 4096]);
    assert_eq!(longest.len(), 24_610);
    let text = report(&longest);
    assert_eq!(text.lines().count(), 4097);
    assert!(text.ends_with("4096 0 0 0 0 0 0\nend 0 0 0 0 0\n"));
    longest.push(0);
    assert_eq!(report(&longest), "file 5\n");
    assert_eq!(report(&file([64; 4], &[(12, 0, 0, 64); 4097])), "file 5\n");
}

#[test]
fn refused_6_contents() {
    let file = file([64; 4], &[(12, 0, 0, 64)]);
    assert_eq!(report(&file), "1 0 0 0 0 0 0\nend 0 0 0 0 0\n");
    for at in 4..26 {
        for to in [3, 7, 255] {
            assert_eq!(report(&changed(file.clone(), at, to)), "file 6\n", "byte {at}");
        }
    }
    for length in 26..40 {
        assert_eq!(report(&file[..length]), "file 6\n");
    }
    let longer = [&file[..], &[0]].concat();
    assert_eq!(report(&longer), "file 6\n");
}

#[test]
fn refused_6_length_not_a_multiple_of_6() {
    let mut file = changed(file([64; 4], &[]), 22, 5);
    file.extend([0; 5]);
    assert_eq!(report(&file), "file 6\n");
}

#[test]
fn refused_7_leg() {
    for place in 0..4 {
        for leg in [0, 4097, 65535] {
            let mut legs = [64; 4];
            legs[place] = leg;
            assert_eq!(report(&file(legs, &[])), "file 7\n");
            // Contents come first.
            assert_eq!(report(&changed(file(legs, &[]), 4, 3)), "file 6\n");
        }
        for leg in [1, 4096] {
            let mut legs = [64; 4];
            legs[place] = leg;
            assert_eq!(report(&file(legs, &[])), "end 0 0 0 0 0\n");
        }
    }
}

#[test]
fn numbers_are_little_endian_and_16_bits() {
    let file = file([64; 4], &[(1, 1, 0x1234, 256), (1, 2, 65535, 1)]);
    assert_eq!(&file[34..40], [1, 1, 0x34, 0x12, 0, 1]);
    assert_eq!(report(&file), "1 0 4660 1 1 0 0\n2 0 65535 2 2 4660 0\nend 2 0 0 0 2\n");
}
