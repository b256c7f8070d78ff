use findspot::{Location, Plan, Point, Prepared, Refusal};

fn main() -> Result<(), Refusal> {
    let outer = [(0, 0), (10, 0), (10, 10), (0, 10)];
    let hole = [(4, 4), (6, 4), (6, 6), (4, 6)];
    let mut prepared = Prepared::with_undo(&Plan::polygon([outer, hole]), 100)?;
    assert_eq!(prepared.locate(Point::new(1, 5)), Location::Inside);
    prepared.move_corner(2, Point::new(20, 20))?;
    assert_eq!(prepared.locate(Point::new(12, 12)), Location::Inside);
    prepared.undo()
}
