from juicedelta import Live

carts = Live()
carts.insert(7, (1, 1, 2, 2))
carts.watch(1, (0, 0, 9, 9))
for window, id, kind in carts.move(7, (10, 1, 11, 2)):
    print(f"row {id} {kind} window {window}")
