//! The site of the archive, by the calls that its users make: each hands the site in by value and keeps the one that comes back.

use crate::call::{Answered, Call, Held, RUN, Takes};
use shpendorak::Site;

/// A site whose calls are those of the archive.
#[derive(Clone, Debug)]
pub struct Archive(pub Held);

impl Takes for Archive {
    /// A fresh site with its cells cleared.
    fn fresh() -> Archive {
        let (mut committed, mut working) = (vec![0; RUN], vec![0; RUN]);
        let site = Site::fresh(&mut committed, &mut working).expect("both runs are right");
        Archive(Held { site, committed, working })
    }

    /// Makes a call.
    fn take(&mut self, call: &Call) -> Answered {
        let Held { site, committed, working } = &mut self.0;
        match *call {
            Call::Offer(ref record) => site.offer(committed, working, record),
            Call::Confirm { id, number } => site.confirm(committed, working, id, number),
            Call::Work { class } => site.work(committed, working, class),
            Call::Read { class, cell } => site.read(committed, working, class, cell),
            Call::Look { id } => site.look(committed, working, id),
            Call::Query { mask } => site.query(committed, working, mask),
        }
    }

    /// The site and cells as they are now.
    fn held(&mut self) -> &mut Held {
        &mut self.0
    }
}
