use juicedelta::{Change, Error, Kind, Live, Rect};

fn main() -> Result<(), Error> {
    let mut carts = Live::<2>::new()?;
    carts.insert(7, &Rect::new([1, 1], [2, 2]))?;
    carts.watch(1, &Rect::new([0, 0], [9, 9]))?;
    for Change { window, id, kind } in carts.update(7, &Rect::new([10, 1], [11, 2]))? {
        println!("row {id} {} window {window}", if kind == Kind::Left { "left" } else { "is in" });
    }
    Ok(())
}
