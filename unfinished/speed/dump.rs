use differential::random::steady;
use differential::rng::Rng;
fn main() {
    let mut rng = Rng::new(0x0062_656E_6368);
    for version in [1u8, 2, 3] {
        
        for size in [1usize, 16, 256, 1024, 4096] {
            for i in 0..32 {
                let f = steady(&mut rng, version, size, false);
                std::fs::write(format!("/work/t/speed/files/v{version}-{size}-{i}"), f).unwrap();
            }
        }
    }
}
