//! The gatekeeper's calls for Rust. What gatekeeper.h asks of a caller, Rust's borrows keep: slices are valid for their
//! lengths and aligned, and what is lent as `&mut` is lent to nobody else.

/// Document 01's answers, with the names and meanings of gatekeeper.h.
pub mod answer {
    pub const GRANTED: u8 = 0;
    pub const SCHEME_RECORDS: u8 = 1;
    pub const SCHEME_COUNTS: u8 = 2;
    pub const SCHEME_BYTES: u8 = 3;
    pub const SCHEME_STRANGERS: u8 = 4;
    pub const NETWORK_BYTES: u8 = 5;
    pub const NO_MEMBER: u8 = 6;
    pub const NO_RESOURCE: u8 = 7;
    pub const SAME_MEMBER: u8 = 8;
    pub const NOT_FOUND: u8 = 9;
    pub const NO_NEXT_STATE: u8 = 10;
    pub const NOT_ADMITTED: u8 = 11;
    pub const NOT_OFFERED: u8 = 12;
    pub const OUTPUT_SHORT: u8 = 13;
}

/// A question of `views`: the viewer asks for the item of the owner. The struct is `gatekeeper_question` of gatekeeper.h.
#[repr(C)]
#[derive(Clone, Copy, Debug, PartialEq, Eq)]
pub struct Question {
    pub viewer: usize,
    pub owner: usize,
    pub item: usize,
    pub answer: u8,
}

mod c {
    use super::Question;

    extern "C" {
        pub fn gatekeeper_check(scheme: *const u8, scheme_length: usize) -> u8;
        pub fn gatekeeper_network_length(scheme: *const u8, scheme_length: usize) -> usize;
        pub fn gatekeeper_fresh(scheme: *const u8, scheme_length: usize, network: *mut u8, network_length: usize) -> u8;
        pub fn gatekeeper_event(
            scheme: *const u8, scheme_length: usize, network: *mut u8, network_length: usize, v: usize, u: usize, a: usize,
        ) -> u8;
        pub fn gatekeeper_set(
            scheme: *const u8, scheme_length: usize, network: *mut u8, network_length: usize, u: usize, r: usize, p: usize,
        ) -> u8;
        pub fn gatekeeper_find(
            scheme: *const u8, scheme_length: usize, network: *const u8, network_length: usize, v: usize, u: usize,
        ) -> u8;
        pub fn gatekeeper_degree(
            scheme: *const u8, scheme_length: usize, network: *const u8, network_length: usize, v: usize, u: usize,
            degree: *mut u16,
        ) -> u8;
        pub fn gatekeeper_list(
            scheme: *const u8, scheme_length: usize, network: *const u8, network_length: usize, v: usize, u: usize,
            output: *mut u16, output_length: usize, count: *mut usize,
        ) -> u8;
        pub fn gatekeeper_suggest(
            scheme: *const u8, scheme_length: usize, network: *const u8, network_length: usize, v: usize, c: usize,
            output: *mut u16, output_length: usize, count: *mut usize,
        ) -> u8;
        pub fn gatekeeper_view(
            scheme: *const u8, scheme_length: usize, network: *const u8, network_length: usize, v: usize, u: usize, o: usize,
        ) -> u8;
        pub fn gatekeeper_views(
            scheme: *const u8, scheme_length: usize, network: *const u8, network_length: usize, questions: *mut Question,
            count: usize,
        ) -> u8;
    }
}

/// What `gatekeeper_degree` writes where no walk of friendships joins the two members.
const DEGREE_NONE: u16 = 65535;

/// The scheme check.
pub fn check(scheme: &[u8]) -> u8 {
    unsafe { c::gatekeeper_check(scheme.as_ptr(), scheme.len()) }
}

/// How many bytes a network has under an accepted scheme; 0 under any other.
pub fn network_length(scheme: &[u8]) -> usize {
    unsafe { c::gatekeeper_network_length(scheme.as_ptr(), scheme.len()) }
}

/// Makes a network fresh.
pub fn fresh(scheme: &[u8], network: &mut [u8]) -> u8 {
    unsafe { c::gatekeeper_fresh(scheme.as_ptr(), scheme.len(), network.as_mut_ptr(), network.len()) }
}

/// Member v uses primitive a towards member u.
pub fn event(scheme: &[u8], network: &mut [u8], v: usize, u: usize, a: usize) -> u8 {
    unsafe { c::gatekeeper_event(scheme.as_ptr(), scheme.len(), network.as_mut_ptr(), network.len(), v, u, a) }
}

/// Member u chooses policy p for resource r.
pub fn set(scheme: &[u8], network: &mut [u8], u: usize, r: usize, p: usize) -> u8 {
    unsafe { c::gatekeeper_set(scheme.as_ptr(), scheme.len(), network.as_mut_ptr(), network.len(), u, r, p) }
}

/// Whether member v finds member u.
pub fn find(scheme: &[u8], network: &[u8], v: usize, u: usize) -> u8 {
    unsafe { c::gatekeeper_find(scheme.as_ptr(), scheme.len(), network.as_ptr(), network.len(), v, u) }
}

/// The least number of friendships between members v and u, none where no walk joins them, or the refusal's number.
pub fn degree(scheme: &[u8], network: &[u8], v: usize, u: usize) -> Result<Option<u16>, u8> {
    let mut degree = 0;
    let answer = unsafe {
        c::gatekeeper_degree(scheme.as_ptr(), scheme.len(), network.as_ptr(), network.len(), v, u, &mut degree)
    };
    match answer {
        answer::GRANTED if degree == DEGREE_NONE => Ok(None),
        answer::GRANTED => Ok(Some(degree)),
        _ => Err(answer),
    }
}

/// Member v asks for u's friends: their number, at the front of the output, or the refusal's number.
pub fn list(scheme: &[u8], network: &[u8], v: usize, u: usize, output: &mut [u16]) -> Result<usize, u8> {
    let mut count = 0;
    let answer = unsafe {
        c::gatekeeper_list(
            scheme.as_ptr(), scheme.len(), network.as_ptr(), network.len(), v, u,
            output.as_mut_ptr(), output.len(), &mut count,
        )
    };
    if answer == answer::GRANTED { Ok(count) } else { Err(answer) }
}

/// Member v asks for c members that it might know: how many are at the front of the output, or the refusal's number.
pub fn suggest(scheme: &[u8], network: &[u8], v: usize, c: usize, output: &mut [u16]) -> Result<usize, u8> {
    let mut count = 0;
    let answer = unsafe {
        c::gatekeeper_suggest(
            scheme.as_ptr(), scheme.len(), network.as_ptr(), network.len(), v, c,
            output.as_mut_ptr(), output.len(), &mut count,
        )
    };
    if answer == answer::GRANTED { Ok(count) } else { Err(answer) }
}

/// Member v asks for item o of member u.
pub fn view(scheme: &[u8], network: &[u8], v: usize, u: usize, o: usize) -> u8 {
    unsafe { c::gatekeeper_view(scheme.as_ptr(), scheme.len(), network.as_ptr(), network.len(), v, u, o) }
}

/// Many views in one call: with 0 each question has the answer that `view` gives to it, with 1 to 5 all are as they were.
pub fn views(scheme: &[u8], network: &[u8], questions: &mut [Question]) -> u8 {
    unsafe {
        c::gatekeeper_views(
            scheme.as_ptr(), scheme.len(), network.as_ptr(), network.len(), questions.as_mut_ptr(), questions.len(),
        )
    }
}
