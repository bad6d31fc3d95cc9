//! An independent reference for the questions to a build, and for posting a reading to one, written from the scope: its
//! questions, 'The index' and 'Numbered replies', and from the requests. It takes any state and any lent columns.
//!
//! A question is answered whole, as a list and perhaps a refusal behind it; what that leaves in output
//! columns, and the reply, follow from the list and from the room that there is.

mod answer;
mod boxes;
mod children;
mod effort;
mod home;
mod ids;
mod leaves;
mod owner;
mod post;
mod question;
mod ring;
mod search;
mod state;
mod tiles;

pub use answer::{Answer, Refusal, Reply};
pub use boxes::{in_box, searches};
pub use children::{children, expansion_zoom};
pub use columns::Lent;
pub use effort::{effort_box, Effort, EffortReply};
pub use home::home;
pub use ids::{decoded, encoded};
pub use leaves::leaves;
pub use options::ZOOMS;
pub use owner::{climbed, owner};
pub use post::post;
pub use question::{Out, Outcome, Question};
pub use ring::ring;
pub use state::State;
pub use tiles::{tally, tile, Item};
