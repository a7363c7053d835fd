//! Tests of the Rust wrapper's degree, suggest and views, and of groups, from the repository's root over a built library.

mod gatekeeper;

/// The standard scheme of four members, and a fresh network with some settings (member, resource and policy), and some pairs
/// friends, by their places.
fn four(settings: &[(usize, usize, usize)], friends: &[usize]) -> (Vec<u8>, Vec<u8>) {
    let scheme = std::fs::read("examples/standard/scheme").expect("no scheme");
    let mut network = vec![0; gatekeeper::network_length(&scheme)];
    assert_eq!(gatekeeper::fresh(&scheme, &mut network), 0);
    for &(u, r, p) in settings {
        assert_eq!(gatekeeper::set(&scheme, &mut network, u, r, p), 0);
    }
    for &pair in friends {
        network[pair] = 3;
    }
    (scheme, network)
}

/// A number, none and a refusal: 0 and 1 are friends, and 1 and 2, and everyone may search for 3 and traverse 1.
#[test]
fn degree() {
    let (scheme, network) = four(&[(3, 0, 12), (1, 1, 4)], &[0, 2]);
    let degree = |v, u| gatekeeper::degree(&scheme, &network, v, u);
    assert_eq!([degree(3, 3), degree(0, 1), degree(0, 2)], [Ok(Some(0)), Ok(Some(1)), Ok(Some(2))]);
    assert_eq!([degree(0, 3), degree(3, 0), degree(0, 4)], [Ok(None), Err(9), Err(6)]);
}

/// The first c, all where there are fewer, and refusals: 1 has the friends 0, 2 and 3, and everyone may search for 2 and 3.
#[test]
fn suggest() {
    let (scheme, network) = four(&[(2, 0, 12), (3, 0, 12)], &[0, 2, 4]);
    let suggest = |v, c| {
        let mut output = [9; 3];
        (gatekeeper::suggest(&scheme, &network, v, c, &mut output), output)
    };
    assert_eq!([suggest(0, 0), suggest(0, 1)], [(Ok(0), [9, 9, 9]), (Ok(1), [2, 9, 9])]);
    assert_eq!([suggest(0, 2), suggest(0, 3)], [(Ok(2), [2, 3, 9]), (Ok(2), [2, 3, 9])]);
    assert_eq!([suggest(0, 4), suggest(4, 4)], [(Err(13), [9, 9, 9]), (Err(6), [9, 9, 9])]);
}

fn questions(asked: &[(usize, usize, usize)], answer: u8) -> Vec<gatekeeper::Question> {
    asked.iter().map(|&(viewer, owner, item)| gatekeeper::Question { viewer, owner, item, answer }).collect()
}

/// Each answer of a single view, the empty list, and lists that are refused: 0 and 1 are friends, and 1 and 2, and everyone may
/// traverse 1.
#[test]
fn views() {
    let (scheme, network) = four(&[(1, 1, 4), (2, 7, 3)], &[0, 2]);
    let far = usize::MAX;
    let asked = [(0, 2, 1), (0, 3, 1), (3, 2, 1), (0, 2, 2), (4, 2, 1), (0, far, 1), (0, 2, 3), (far, far, far), (0, 2, 1)];
    let wanted = [0, 9, 9, 11, 6, 6, 7, 6, 0];
    let mut filled = questions(&asked, 99);
    assert_eq!(gatekeeper::views(&scheme, &network, &mut filled), 0);
    for (i, (&(v, u, o), &answer)) in asked.iter().zip(&wanted).enumerate() {
        assert_eq!(filled[i], gatekeeper::Question { viewer: v, owner: u, item: o, answer });
        assert_eq!(gatekeeper::view(&scheme, &network, v, u, o), answer);
    }
    for list in [&asked[..], &[]] {
        let mut left = questions(list, 99);
        assert_eq!(gatekeeper::views(&scheme[1..], &network, &mut left), 1);
        assert_eq!(gatekeeper::views(&scheme, &network[1..], &mut left), 5);
        assert_eq!(left, questions(list, 99));
    }
    assert_eq!(gatekeeper::views(&scheme, &network, &mut []), 0);
}

/// A sixth record after the five of the standard scheme: 1 has the friends 0, 2 and 3, and everyone may search for 2 and 3.
#[test]
fn groups() {
    let (scheme, network) = four(&[(2, 0, 12), (3, 0, 12)], &[0, 2, 4]);
    let with = |sixth: &[u8]| [&scheme[..], sixth].concat();
    let suggested = |groups: [u8; 4]| {
        let mut output = [9; 2];
        (gatekeeper::suggest(&with(&[&[4, 0, 6, 0][..], &groups].concat()), &network, 0, 2, &mut output), output)
    };
    assert_eq!([suggested([0, 0, 0, 0]), suggested([1, 0, 1, 1])], [(Ok(2), [2, 3]), (Ok(2), [2, 3])]);
    assert_eq!([suggested([0, 1, 0, 0]), suggested([0, 2, 0, 0])], [(Ok(0), [9, 9]), (Err(3), [9, 9])]);
    assert_eq!([gatekeeper::check(&with(&[4, 0, 6, 0, 0, 0, 0])), gatekeeper::check(&with(&[4, 0, 7, 0, 0, 0, 0, 0]))], [1, 1]);
}
