tables
iattr bus
iattr hub
device bus offers bus
device hub offers hub
device leaf
attach bus of bus at root
attach hub of hub at bus
attach leaf of leaf at hub
row 0 bus0 at root by bus on root flags 0
row 1 hub* from 0 at bus? by hub on bus flags 0
row 2 leaf* from 0 at hub? by leaf on hub flags 0
history 2
0.0 found root on b: bus0 row 0
0.0 found bus0 on h0: hub0 row 1
0.0 found bus0 on h1: hub1 row 1
0.0 scan bus0: done
0.0 found hub0 on l0: leaf0 row 2
0.0 scan hub0: done
0.0 scan hub1: done
0.0 scan root: done
0.0 interrupts
0.0 final hub0: 0
0.0 final hub1: 1 on l1: leaf1 row 2
0.0 final hub0: 0
0.0 final hub1: 1 on l2: leaf2 row 2
0.0 final hub0: 0
0.0 final hub1: 0
0.0 end
tree
bus0 at root row 0
  hub0 at bus0 row 1
    leaf0 at hub0 row 2
  hub1 at bus0 row 1
    leaf1 at hub1 row 2
    leaf2 at hub1 row 2
