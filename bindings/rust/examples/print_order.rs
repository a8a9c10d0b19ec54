//! In which order can the commits of the image on standard input have been made,
//! each from a view of everything?
use consistency::{judge_image, Bare, LONGEST_IMAGE, MOST_COMMITS};
use std::io::{stdin, Read};

fn main() {
    let mut image = Vec::new();
    let mut input = stdin().take(LONGEST_IMAGE as u64 + 1);
    input.read_to_end(&mut image).expect("an image");
    let mut shown = [0; MOST_COMMITS];
    match judge_image(&image, &mut shown) {
        Bare::Refused(why) => println!("code {}", why.code),
        Bare::Order(commits) => println!("in this order: {:?}", &shown[..commits]),
        Bare::Ring(commits) => println!("in none, see {:?}", &shown[..commits]),
    }
}
