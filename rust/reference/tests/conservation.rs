//! The scaled rates of energy and enstrophy, by the tendencies that the call
//! fills in: energy exactly 0 for every boundary and any barriers, enstrophy
//! exactly 0 where no edge is closed, for any lent q.

use crate::common::literal::{self, Three, Variant, NO_E_F, PAPER};
use crate::common::{is_open, random_q, random_size, random_state, random_state_without_barriers};
use crate::common::{tendencies_of, vorticity_of, Random, Spread, SPREADS};
use reference::{energy_rate, enstrophy_rate, State};

/// A random state, a q for it (its own or any), and the tendencies that the
/// library fills in.
struct Case {
    state: State,
    q: Vec<i64>,
    rates: Three,
}

impl Case {
    /// Every second one with barriers.
    fn new(random: &mut Random, kind: u8) -> Self {
        let (spread, size) = (random.pick(&SPREADS), random_size(random));
        let state = random_state(random, spread, size, kind);
        Case::of(random, state)
    }

    /// One without closed edges.
    fn open(random: &mut Random) -> Self {
        let (spread, size) = (random.pick(&SPREADS), random_size(random));
        let state = random_state_without_barriers(random, spread, size, 0);
        Case::of(random, state)
    }

    fn of(random: &mut Random, state: State) -> Self {
        let q = if random.once_in(4) {
            vorticity_of(&state).expect("within the limits")
        } else {
            let spread = random.pick(&[Spread::Even, Spread::Extreme, Spread::Mixed]);
            random_q(random, spread, &state.parameters)
        };
        let rates = tendencies_of(&state, &q).expect("within the limits");
        Case { state, q, rates }
    }

    fn energy_rate(&self, rates: &Three) -> i128 {
        let rate = energy_rate(&self.state, &rates.h, &rates.u, &rates.v);
        assert_eq!(rate, literal::energy_rate(&self.state, rates));
        rate
    }

    fn enstrophy_rate(&self, rates: &Three) -> i128 {
        let rate = enstrophy_rate(
            &self.state.parameters,
            &self.q,
            &rates.h,
            &rates.u,
            &rates.v,
        );
        assert_eq!(rate, literal::enstrophy_rate(&self.state, &self.q, rates));
        rate
    }
}

/// The tendencies with one number of one list moved by a little.
fn altered(random: &mut Random, rates: &Three) -> Three {
    let mut rates = rates.clone();
    let list = match random.below(3) {
        0 => &mut rates.h,
        1 => &mut rates.u,
        _ => &mut rates.v,
    };
    let place = random.below(list.len());
    list[place] += random.pick(&[-2, -1, 1, 2]);
    rates
}

#[test]
fn energy_rate_is_zero_for_every_boundary_and_any_barriers() {
    for kind in 0..3 {
        let mut random = Random::new(10 + u64::from(kind));
        let (mut seen, mut tried) = (0, 0);
        for _ in 0..3_000 {
            let case = Case::new(&mut random, kind);
            let Case { state, q, rates } = &case;
            assert_eq!(case.energy_rate(rates), 0, "{state:?} {q:?}");
            tried += 1;
            let wrong = altered(&mut random, rates);
            seen += usize::from(case.energy_rate(&wrong) != 0);
        }
        // An altered tendency of an edge shows only where its flux is not 0.
        println!("kind {kind}: {seen} of {tried} alterations seen");
        assert!(seen * 10 > tried * 6, "{seen} of {tried}");
    }
}

#[test]
fn enstrophy_rate_is_zero_without_closed_edges() {
    let mut random = Random::new(20);
    let (mut seen, mut tried) = (0, 0);
    for _ in 0..5_000 {
        let case = Case::open(&mut random);
        let Case { state, q, rates } = &case;
        assert_eq!(case.enstrophy_rate(rates), 0, "{state:?} {q:?}");
        tried += 1;
        let wrong = altered(&mut random, rates);
        seen += usize::from(case.enstrophy_rate(&wrong) != 0);
    }
    // An altered Tu or Tv shows only where q differs along its edge, so not
    // on a single row or column.
    println!("{seen} of {tried} alterations seen");
    assert!(seen * 10 > tried * 6, "{seen} of {tried}");
}

#[test]
fn enstrophy_rate_need_not_be_zero_at_walls_and_barriers() {
    for kind in 0..3 {
        let mut random = Random::new(30 + u64::from(kind));
        let mut closed = 0;
        let nonzero = (0..600)
            .map(|_| Case::new(&mut random, kind))
            .filter(|case| !is_open(&case.state))
            .inspect(|_| closed += 1)
            .filter(|case| case.enstrophy_rate(&case.rates) != 0)
            .count();
        println!("kind {kind}: {nonzero} of {closed}");
        assert!(closed > 200 && nonzero * 3 > closed, "{nonzero} {closed}");
    }
}

#[test]
fn without_e_and_f_energy_balances_and_enstrophy_does_not() {
    let mut random = Random::new(40);
    let mut nonzero = 0;
    for _ in 0..1_000 {
        let case = Case::open(&mut random);
        let Case { state, q, .. } = &case;
        let rates = NO_E_F.tendencies(state, q);
        assert_eq!(case.energy_rate(&rates), 0, "{state:?} {q:?}");
        nonzero += usize::from(case.enstrophy_rate(&rates) != 0);
    }
    println!("{nonzero} of 1000");
    assert!(nonzero > 500, "{nonzero}");
}

#[test]
fn beta_from_the_wrong_cell_breaks_energy() {
    let wrong = Variant {
        beta_from_own_cell: true,
        ..PAPER
    };
    let mut random = Random::new(50);
    let nonzero = (0..1_000)
        .map(|_| Case::open(&mut random))
        .filter(|case| case.energy_rate(&wrong.tendencies(&case.state, &case.q)) != 0)
        .count();
    println!("{nonzero} of 1000");
    assert!(nonzero > 500, "{nonzero}");
}
