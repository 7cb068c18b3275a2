// Decodes a DCCH block: as it was sent, with wrong bits, and where it cannot be decoded.
use bts136::dcch::{self, BlockFormat, CrcMode};

const FORMAT: BlockFormat = BlockFormat::Forward;
const MODE: CrcMode = CrcMode::Addressed;

fn main() {
    let information: Vec<bool> = (0..109).map(|place| place % 3 == 0).collect();
    let mut block = dcch::encode(FORMAT, &information, 0x5a, MODE).expect("109 bits");
    tell("as sent", &block, 0x5a);
    for place in [10, 100, 200] {
        block[place] = !block[place];
    }
    tell("three wrong bits", &block, 0x5a);
    tell("another colour code", &block, 0x5b);
    tell("one bit short", &block[..259], 0x5a);
    tell("nothing but zeros", &[false; 260], 0);
}

fn tell(what: &str, block: &[bool], dvcc: u8) {
    match dcch::decode(FORMAT, block, dvcc, MODE) {
        Ok(decoded) => {
            println!(
                "{what}: accepted, corrected {}",
                decoded.corrected_coded_bits
            );
            let digit = |bit: &bool| if *bit { '1' } else { '0' };
            println!(
                "  {}",
                decoded.information.iter().map(digit).collect::<String>()
            );
        }
        Err(error) => println!("{what}: refused with number {}", error.number()),
    }
}
