//! Clear: no edges, all figures 0, all settled; spare bits become 0.

use super::refusal::Refusal;
use super::state::State;

pub fn clear(state: State) -> Result<(), Refusal> {
    state.check()?;
    state.edges.fill(0);
    state.figures.fill(0);
    state.marks.fill(0);
    Ok(())
}
