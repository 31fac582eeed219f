//! The calls of a site, from Rust, over the proved archive `libhost.a`.
//!
//! The caller owns the site and two runs of 1,024 cells and lends all three to each call. Any site,
//! cells, record and numbers are taken: what is wrong is refused and nothing is touched.
//!
//! A record may also be typed and shown as a text, by [`read_text`] and [`write_text`].
//!
//! ```
//! use shpendorak::{Answer, RUN_LENGTH, Refusal, Site};
//!
//! # fn main() -> Result<(), Refusal> {
//! let (mut committed, mut working) = ([0; RUN_LENGTH], [0; RUN_LENGTH]);
//! let mut site = Site::fresh(&mut committed, &mut working)?;
//! let mut booking = [0; 64]; // id 7, class 3, one operation: put 100 into cell 0
//! [booking[0], booking[4], booking[5], booking[8], booking[12]] = [7, 3, 1, 1, 100];
//! site.offer(&committed, &working, &booking)?;
//! let confirmed = site.confirm(&mut committed, &mut working, 7, 1)?;
//! assert_eq!(confirmed, Answer::Waiting { id: 7, w: 1, put_back: 0 });
//! let done = site.work(&mut committed, &mut working, 3)?;
//! assert_eq!(done, Answer::Committed { id: 7, number: 1, mark: 0, slot: 0, backs: 0 });
//! assert_eq!(site.read(&committed, &working, 3, 0)?, Answer::Value(100));
//! assert_eq!(site.work(&mut committed, &mut working, 3), Err(Refusal::NothingToDo));
//! # Ok(())
//! # }
//! ```

mod answer;
pub mod raw;
mod site;
mod text;

pub use answer::{Answer, Refusal, answered};
pub use raw::{CELLS, LONGEST_TEXT, Op, Query, RECORD_BYTES, RUN_LENGTH, Site, Slot};
pub use text::{TextRefusal, read_text, write_text};
