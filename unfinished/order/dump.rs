use differential::random::{steady, steady_ranges};
use differential::rng::Rng;
fn main() {
    let mut rng = Rng::new(20260101);
    for version in [1u8, 2, 3] { for size in [1usize, 16, 32, 64, 256, 1024, 4096] { for i in 0..4 {
        let f = steady(&mut rng, version, size, false);
        std::fs::write(format!("/work/t/files/v{version}-{size}-{i}"), f).unwrap();
    }}}
    for size in [1usize, 16, 256, 1024, 4096] { for i in 0..4 { std::fs::write(format!("/work/t/files/v2q-{size}-{i}"), steady_ranges(&mut rng, size)).unwrap(); }}
}
