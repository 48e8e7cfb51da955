// Tries a receiver that users copy: tests/faces.sh appends this to the Rust of docs/GUIDE.md or of
// bindings/rust/examples/demo.rs. With the word `filter` it is a program like the example; without, it tries blocks
// that are refused: one that is too long, an odd one, and one that is refused after some of its calls were accepted.

fn main() {
    if std::env::args().any(|word| word == "filter") {
        return filter();
    }
    let block = |k: usize| -> Vec<u8> { (k * 1234..(k + 1) * 1234).map(|b| (b * b / 7 + b / 3) as u8).collect() };
    let same = |a: &Receiver, b: &Receiver| a.i == b.i && a.q == b.q && a.fm == b.fm;
    let (mut here, mut other) = (Receiver::new().unwrap(), Receiver::new().unwrap());
    for k in 0..4 {
        let good = here.clone();
        let too_many = vec![0; threshlantern::LONGEST + 2];
        assert_eq!(here.receive(&too_many), Err(threshlantern::Error::Limit));
        assert_eq!(here.receive(&[1, 2, 3]), Err(threshlantern::Error::Length));
        assert!(same(&here, &good), "a block that is too long or odd moved something");
        here.q.phase = 99; // Q's decimator is refused, I's is not
        let spoilt = here.clone();
        assert_eq!(here.receive(&block(k)), Err(threshlantern::Error::Setting));
        assert!(same(&here, &spoilt), "a refusal of Q moved I");
        here.q.phase = good.q.phase;
        let sound = here.receive(&block(k)).unwrap();
        assert!(sound.len() >= 61 && sound == other.receive(&block(k)).unwrap(), "block {k}");
    }
}

fn filter() {
    use std::io::{Read as _, Write as _};
    let mut receiver = Receiver::new().unwrap();
    let mut bytes = Vec::new();
    std::io::stdin().read_to_end(&mut bytes).unwrap();
    if bytes.len() % 2 == 1 {
        bytes.pop();
        eprintln!("odd input");
    }
    for block in bytes.chunks(20_000) {
        for sample in receiver.receive(block).unwrap() {
            std::io::stdout().write_all(&sample.to_le_bytes()).unwrap();
        }
    }
}
