//! A list that a failing test shows can be made again.
use second::gen::{self, Rng};
use second::store::DISTANCES;
use suite::lists::Lent;

#[test]
fn a_shown_list_is_made_again() {
    let mut rng = gen::seeded("lists::a_shown_list_is_made_again", 7_700);
    for _ in 0..100 {
        let seed = rng.seed();
        let list: Lent<u16> = Lent::anything(&mut rng, DISTANCES, DISTANCES + 1);
        let shown = format!("Lent::anything(&mut Rng::new({seed}), 128, 129)");
        assert_eq!(list.to_string(), shown);
        assert!(list == Lent::anything(&mut Rng::new(seed), 128, 129));
        assert!(list.of_length(5) == Lent::anything(&mut Rng::new(seed), 128, 5));
    }
}
