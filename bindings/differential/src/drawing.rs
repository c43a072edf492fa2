//! Expressions: drawn and refused as the reference says.

use reference_checker::expression::{expression, Pool, ROOT};
use reference_checker::random::Random;
use reference_checker::read::Refusal;
use swarmbanner::lent::{self, POOL_LEAST, REPLY_LEAST};
use swarmbanner::{Arc, Machine, PoolState, Session};

use crate::compare::{demand, length, refused, MORE, TYPED};
use crate::lend::Lent;
use crate::tally::Tally;

pub struct Drawer {
    pool: Lent<u8>,
    reply: Lent<usize>,
}

/// The pool, or why there is none.
type Reply = Result<Pool, Refusal>;

impl Drawer {
    pub fn new(random: &mut Random) -> Self {
        Drawer {
            pool: Lent::new(POOL_LEAST + MORE, || random.between(1, 255) as u8),
            reply: Lent::new(REPLY_LEAST + MORE, || random.between(1, usize::MAX - 1)),
        }
    }

    pub fn compare(&mut self, text: &[u8], random: &mut Random, tally: &mut Tally) -> Result<(), String> {
        self.draw(text, random, tally).map_err(|why| format!("draw {:?}: {why}", String::from_utf8_lossy(text)))
    }

    fn draw(&mut self, text: &[u8], random: &mut Random, tally: &mut Tally) -> Result<(), String> {
        let (pool_length, reply_length) = (length(random, POOL_LEAST), length(random, REPLY_LEAST));
        let kind = lent::expression(text, self.pool.lend(pool_length), self.reply.lend(reply_length));
        if pool_length < POOL_LEAST || reply_length < REPLY_LEAST {
            tally.count("draw: no room");
            demand(kind == lent::NO_ROOM, "room was found where there is none")?;
            return demand(self.pool.kept() && self.reply.kept(), "written to without room");
        }
        let expected: Reply = expression(text).map(|states| Pool::of(&states));
        tally.count_drawn(&expected);
        demand(self.reply.kept_from(REPLY_LEAST), "the reply's rest has changed")?;
        let told = (kind, self.reply.now()[..REPLY_LEAST].try_into().expect("a reply has four numbers"));
        let wanted = match &expected {
            Ok(pool) => (lent::DRAWN, [ROOT, pool.state_count, 0, 0]),
            Err(refusal) => refused(refusal),
        };
        demand(told == wanted, &format!("told {told:?}, not {wanted:?}"))?;
        self.left(&expected)?;
        if random.below(TYPED) == 0 {
            compare_typed(text, &expected)?;
        }
        Ok(())
    }

    /// What drawing leaves in the pool.
    fn left(&self, expected: &Reply) -> Result<(), String> {
        let Ok(pool) = expected else {
            return demand(self.pool.kept(), "the pool has changed after a refusal");
        };
        let entries = pool.finals.iter().map(|&mark| u8::from(mark)).chain(pool.arcs);
        demand(self.pool.now()[..POOL_LEAST].iter().copied().eq(entries), "another pool")?;
        demand(self.pool.kept_from(POOL_LEAST), "the pool's rest has changed")
    }
}

/// The typed diagram says the same, and it is the pool of a session.
fn compare_typed(text: &[u8], expected: &Reply) -> Result<(), String> {
    let (diagram, pool) = match (swarmbanner::expression(text), expected) {
        (Ok(diagram), Ok(pool)) => (diagram, pool),
        (Err(one), Err(other)) => return demand(one.to_string() == other.to_string(), "the typed refusal differs"),
        _ => return Err("only one of the typed call and the reference refuses".to_string()),
    };
    let rows = pool.finals.iter().zip(pool.arcs.chunks(lent::at::ARC_ROW)).take(pool.state_count);
    let same = |(state, (&is_final, row)): (&PoolState, (&bool, &[u8]))| {
        let arc = |arc: &Arc| (usize::from(arc.message), arc.target.index() + 1);
        let arcs = row.iter().enumerate().filter(|(_, &entry)| entry > 0);
        state.is_final == is_final
            && state.arcs.iter().map(arc).eq(arcs.map(|(message, &entry)| (message, usize::from(entry))))
    };
    demand(diagram.states().len() == pool.state_count, "the typed diagram has other states")?;
    demand(diagram.states().iter().zip(rows).all(same), "the typed diagram differs")?;
    let mut session = Session::new(&[Machine { states: 1, start: 0 }], &[32]).expect("it is within its ranges");
    let root = session.set_pool(&diagram).map_err(|error| error.to_string())?;
    session.set_root(0, Some(root)).map_err(|error| error.to_string())?;
    let file = session.write().map_err(|refusal| refusal.to_string())?;
    demand(swarmbanner::read(&file) == Ok(session), "the session of a diagram is not read again")
}
