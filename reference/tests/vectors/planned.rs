//! An order for the day's jobs (Point 6): which plans the committed calls ask for,
//! and planners that read it otherwise, each told apart by what is printed.

use crate::walk::{committed, each_command, fronts};
use reference::command::{Command, Lengths};
use reference::orders::own_order_is_granted;
use reference::plan::requests_of;
use reference::planners::Planner::{self, *};
use reference::play::Player;
use reference::{given, plan, Plan, Request, State};
use std::collections::BTreeMap;
use std::sync::OnceLock;

/// A plan that the committed calls ask for.
struct Asked {
    /// The tables and the buffers before it.
    player: Player,
    lent: Lengths,
    jobs: Vec<u8>,
    /// Whether the buffers are those that a list from blank left.
    left_by_a_list: bool,
    /// The right plan.
    plan: Plan,
}

/// Every plan.
fn plans() -> &'static [Asked] {
    static PLANS: OnceLock<Vec<Asked>> = OnceLock::new();
    PLANS.get_or_init(|| {
        let (mut found, mut left_by_a_list) = (Vec::new(), false);
        each_command(&committed("stdin"), |player, command| match command {
            Command::Blank { lent } if is_whole(lent) => left_by_a_list = given(&player.tables),
            Command::Load { .. } | Command::Field { .. } => left_by_a_list = false,
            Command::Byte { .. } | Command::LevelByte { .. } => left_by_a_list = false,
            Command::Plan { lent, jobs } => {
                let (history, levels) = fronts(player, lent);
                found.push(Asked {
                    player: like(player),
                    lent: *lent,
                    jobs: jobs.clone(),
                    left_by_a_list,
                    plan: plan(&player.tables, history, levels, jobs),
                });
            }
            _ => {}
        });
        found
    })
}

fn is_whole(lent: &Lengths) -> bool {
    (lent.history, lent.levels) == (18_944, 128)
}

/// A player with the same tables and the same history and levels.
fn like(player: &Player) -> Player {
    Player {
        tables: player.tables.clone(),
        history: player.history.clone(),
        levels: player.levels.clone(),
        ..Player::new()
    }
}

impl Asked {
    fn plan_by(&self, planner: Planner) -> Plan {
        let (history, levels) = fronts(&self.player, &self.lent);
        planner.plan(&self.player.tables, history, levels, &self.jobs)
    }

    /// What is printed for a plan.
    fn line(&self, plan: &Plan) -> String {
        let mut player = like(&self.player);
        player.put_planned(&self.lent, &self.jobs, plan);
        player.text
    }

    /// The requests of a list that is not refused.
    fn requests(&self) -> Vec<Request> {
        requests_of(&self.player.tables, &self.jobs).unwrap()
    }

    fn own_order_is_granted(&self) -> bool {
        let (history, levels) = fronts(&self.player, &self.lent);
        let (tables, state) = (&self.player.tables, State::of(history, levels));
        own_order_is_granted(tables, &state, &self.requests())
    }
}

/// How many plans give each number; how many of those that give 0 have more than
/// two jobs in an order that is not granted, and how many of these have a step.
#[test]
fn plans_of_every_number() {
    let (mut numbers, mut lengths) = (BTreeMap::new(), BTreeMap::new());
    let (mut all, mut otherwise, mut with_step, mut repeated) = (0, 0, 0, 0);
    for asked in plans() {
        let number = asked.plan.number;
        all += 1;
        *numbers.entry(number).or_insert(0) += 1;
        *lengths.entry(asked.jobs.len()).or_insert(0) += 1;
        if number == 0 {
            let requests = asked.requests();
            let step = |request: &Request| matches!(request, Request::Step { .. });
            let again = |place: usize| requests[..place].contains(&requests[place]);
            repeated += usize::from((0..requests.len()).any(again));
            if requests.len() > 2 && !asked.own_order_is_granted() {
                otherwise += 1;
                with_step += usize::from(requests.iter().any(step));
            }
        }
    }
    println!("{all} plans, by number: {numbers:?}, by the bytes of the list: {lengths:?}");
    println!(
        "{otherwise} of more than two jobs have an order but not their own, {with_step} of these \
         with a step; {repeated} with an order have a repeated record"
    );
    assert!(3 * otherwise >= all && 3 * with_step >= 2 * otherwise && repeated >= 20);
    assert!(numbers[&22] >= 60 && numbers[&23] >= 60);
    for jobs in (0..=6).chain([64, 65]) {
        assert!(lengths[&(4 * jobs)] >= 4, "{jobs} jobs");
    }
}

/// Buffers that no list from blank leaves may have 23 though there is an order: no
/// such plan is asked for.
#[test]
fn no_number_is_free() {
    let mut elsewhere = BTreeMap::new();
    for asked in plans().iter().filter(|asked| !asked.left_by_a_list) {
        let number = asked.plan.number;
        assert!(number != 0 || asked.jobs.is_empty());
        *elsewhere.entry(number).or_insert(0) += 1;
    }
    println!("plans on buffers that no list leaves, by number: {elsewhere:?}");
    assert!(elsewhere[&0] >= 4 && elsewhere[&22] >= 4 && elsewhere[&23] >= 25);
}

/// The least number of lines by which each wrong planner is told apart.
const LEAST: [(Planner, usize); 23] = [
    (ReadsBeforeSteps, 20),
    (LevelTestLeftOut, 65),
    (LevelTestTurnedRound, 45),
    (RanksAlone, 25),
    (ReadsDoNotLower, 35),
    (StepsDoNotLower, 30),
    (EnablingTestLeftOut, 50),
    (EnablingTestTurnedRound, 55),
    (OrderNotTried, 70),
    (OwnOrderAlone, 110),
    (EachJobAlone, 115),
    (TriedFromBlank, 10),
    (SixtyFourRefused, 4),
    (EmptyHasNoOrder, 10),
    (StartsPlanned, 10),
    (UndeclaredHasNoOrder, 25),
    (StepOfAReadCounts, 185),
    (CutJobPassedOver, 10),
    (JobsBeforeLent, 5),
    (PlaceTwice, 125),
    (PlacesFromOne, 135),
    (PlacesInverted, 20),
    (FoundOrderLeft, 55),
];

/// The planner that compares pairs prints what the player prints, and each wrong
/// one something else; but for repeats handed back as one place, which leave the
/// same history and levels.
#[test]
fn each_wrong_planner_is_told_apart() {
    let mut found: BTreeMap<Planner, usize> = BTreeMap::new();
    for asked in plans() {
        let by_pairs = asked.plan_by(Right);
        let expected = asked.line(&asked.plan);
        assert_eq!(asked.line(&by_pairs), expected);
        for planner in Planner::WRONG {
            let ours = asked.plan_by(planner);
            let same = ours == by_pairs || asked.line(&ours) == expected;
            *found.entry(planner).or_default() += usize::from(!same);
        }
    }
    println!("lines otherwise: {found:?}");
    for (planner, least) in LEAST {
        assert!(found[&planner] >= least, "{planner:?}");
    }
    assert_eq!(found[&RepeatsAsOne], 0);
    assert_eq!(found.len(), LEAST.len() + 1);
}
