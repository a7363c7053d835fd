//! Runs the requests of a text file from a fresh network and prints document 01's line for each: session SCHEME REQUESTS

mod gatekeeper;

/// What is printed of a request after its position.
fn answer_line(scheme: &[u8], network: &mut [u8], name: &str, numbers: &[usize]) -> String {
    match (name, numbers) {
        ("event", &[v, u, a]) => gatekeeper::event(scheme, network, v, u, a).to_string(),
        ("set", &[u, r, p]) => gatekeeper::set(scheme, network, u, r, p).to_string(),
        ("find", &[v, u]) => gatekeeper::find(scheme, network, v, u).to_string(),
        ("view", &[v, u, o]) => gatekeeper::view(scheme, network, v, u, o).to_string(),
        ("list", &[v, u]) => {
            let mut output = [0; 256];
            match gatekeeper::list(scheme, network, v, u, &mut output) {
                Ok(count) => output[..count].iter().fold("0".to_string(), |line, friend| format!("{line} {friend}")),
                Err(answer) => answer.to_string(),
            }
        }
        _ => panic!("a request that cannot be read: {name}"),
    }
}

fn main() {
    let files: Vec<String> = std::env::args().skip(1).collect();
    let scheme = std::fs::read(&files[0]).expect("no scheme");
    let requests = std::fs::read_to_string(&files[1]).expect("no requests");
    assert_eq!(gatekeeper::check(&scheme), gatekeeper::answer::GRANTED, "the scheme is refused");
    let mut network = vec![0; gatekeeper::network_length(&scheme)];
    assert_eq!(gatekeeper::fresh(&scheme, &mut network), gatekeeper::answer::GRANTED, "no fresh network");
    for (i, line) in requests.lines().enumerate() {
        let mut words = line.split_whitespace();
        let name = words.next().expect("an empty line");
        let numbers: Vec<usize> = words.map(|word| word.parse().expect("no number")).collect();
        println!("{} {}", i + 1, answer_line(&scheme, &mut network, name, &numbers));
    }
}
