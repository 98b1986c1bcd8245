"""A seat's role before it is switched on, after, and after a load: whether the seat may use its privilege by active roles."""
from keeper import Keeper

keeper = Keeper()
keeper.add_by_privileges(role=2, effective={0})
keeper.assign(seat=5, role=2)
answers = [keeper.may_active(5, 0)]
keeper.activate(seat=5, role=2)
answers.append(keeper.may_active(5, 0))
keeper.load(keeper.save())
answers.append(keeper.may_active(5, 0))
print(*answers)
