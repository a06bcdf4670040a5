//! The worked texts through the product: the refusal of each, or the diagram of the file beside it.

use agreement::product;
use generators::worked_texts::{accepted, counted, refused, Reply};
use generators::CallPlan;

/// The product's replies to a load of this text and to calls behind it.
fn product_replies(text: &[u8], calls: &[CallPlan]) -> Vec<Vec<u8>> {
    let text = text.to_vec();
    let load = CallPlan::LoadText { place: 0, text };
    product::replies(&[&[load], calls].concat())
}

#[test]
fn the_product_refuses_the_same_texts() {
    for (name, text, number) in refused() {
        assert_eq!(product_replies(text, &[]), [[number]], "{name}");
    }
    for (name, text, reply) in counted() {
        let number = match reply {
            Reply::FileOf(_) => 0,
            Reply::Refused(number) => number,
        };
        assert_eq!(product_replies(&text, &[]), [[number]], "{name}");
    }
}

#[test]
fn the_product_holds_the_diagrams_of_the_files() {
    for (name, text, file) in accepted() {
        let file = file.to_vec();
        let [compile, compile_file] = [0, 1].map(|place| CallPlan::Compile { place });
        let load = CallPlan::Load { place: 1, file };
        let compare = CallPlan::Compare { bound: 2 };
        let replies = product_replies(text, &[load, compile, compile_file, compare]);
        assert_eq!(replies[..2], [[0], [0]], "{name}");
        assert_eq!(replies[2], replies[3], "{name}");
        assert_eq!(replies[4], [0, 0], "{name}");
    }
}
