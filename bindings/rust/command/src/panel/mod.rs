//! The handlebar panel in a terminal: draws the card, and takes messages from a directory as they come.
mod board;
mod buttons;
mod draw;
mod inbox;
mod terminal;
mod view;

use crate::args::Asked;
use crate::fault::Fault;
use crate::store::Store;
use board::Board;
use buttons::{Buttons, Press};
use inbox::Inbox;
use std::io::IsTerminal;
use std::path::Path;
use std::time::{Instant, SystemTime};
use terminal::Terminal;
use view::View;

/// The clock that was given, or the machine's.
fn clock(asked: &Asked) -> i64 {
    let now =
        || SystemTime::now().duration_since(SystemTime::UNIX_EPOCH).map_or(0, |since| since.as_secs() as i64);
    asked.clock.unwrap_or_else(now)
}

pub fn run(asked: &Asked, directory: &Path) -> Result<(), Fault> {
    let mut inbox = Inbox::of(directory);
    let mut board = Board::over(Store::panel(&asked.state)?, asked.state.clone());
    board.take(&inbox.arrived()?, clock(asked))?;
    if asked.once {
        let colour = asked.colour || std::io::stdout().is_terminal();
        print!(
            "{}",
            draw::text(&draw::frame(&board, &View::default(), clock(asked), (72, usize::MAX)), colour)
        );
        return Ok(());
    }
    if !std::io::stdin().is_terminal() {
        return Err(Fault::Usage("panel wants a terminal; --once prints the panel as it is".into()));
    }
    ride(asked, &mut inbox, &mut board)
}

/// Draws, takes what has come, listens to the buttons; until the rider quits.
fn ride(asked: &Asked, inbox: &mut Inbox, board: &mut Board) -> Result<(), Fault> {
    let mut terminal = Terminal::open().map_err(Fault::Unprinted)?;
    let mut buttons = Buttons::default();
    let mut view = View::default();
    let start = Instant::now();
    loop {
        let frame = draw::frame(board, &view, clock(asked), terminal.size);
        terminal.show(&draw::text(&frame, true)).map_err(Fault::Unprinted)?;
        for key in terminal.keys().map_err(Fault::Unprinted)? {
            match buttons.press(key, start.elapsed()) {
                Press::Quit => return Ok(()),
                press => view.press(press, board.trains().len()),
            }
        }
        board.take(&inbox.arrived()?, clock(asked))?;
    }
}
