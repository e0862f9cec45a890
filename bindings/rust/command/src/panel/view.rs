//! What the rider looks at.
use super::buttons::Press;

#[derive(Clone, Copy, Debug, Default, PartialEq)]
pub enum Page {
    #[default]
    Card,
    Train,
    Notices,
    Records,
}

#[derive(Clone, Copy, Debug, Default, PartialEq)]
pub struct View {
    pub page: Page,
    /// The chosen train, by its place on the card.
    pub train: usize,
}

impl View {
    pub fn press(&mut self, press: Press, trains: usize) {
        match press {
            Press::Mode => self.page = self.next(),
            Press::Trip => self.train = (self.train + 1) % trains.max(1),
            Press::Records => self.page = Page::Records,
            Press::Quit | Press::Nothing => {}
        }
    }

    fn next(self) -> Page {
        match self.page {
            Page::Card => Page::Train,
            Page::Train => Page::Notices,
            Page::Notices | Page::Records => Page::Card,
        }
    }
}
