//! What a fuzz begins with: nothing, a header of zeros, and sheets of `examples/`, the last two of numbers.

use crate::sheet::HEADER_LEN;

pub const SEEDS: [&[u8]; 11] = [
    &[],
    &[0; HEADER_LEN],
    include_bytes!("../../../examples/a.sheet"),
    include_bytes!("../../../examples/b.sheet"),
    include_bytes!("../../../examples/c.sheet"),
    include_bytes!("../../../examples/d.sheet"),
    include_bytes!("../../../examples/d-bad.sheet"),
    include_bytes!("../../../examples/garbled.sheet"),
    include_bytes!("../../../examples/large.sheet"),
    include_bytes!("../../../examples/recipe.sheet"),
    include_bytes!("../../../examples/widest.sheet"),
];
