tables
iattr mainbus
iattr isa [port=-1] [irq=-1]
device mainbus offers mainbus
device isa offers isa
device com
attach mainbus of mainbus at root
attach isa of isa at mainbus
attach com_isa of com at isa
row 0 mainbus0 at root by mainbus on root flags 0
row 1 isa0 at mainbus0 by isa on mainbus flags 0
row 2 com0 at isa? by com_isa on isa port=1016 irq=4 flags 0
row 3 com* from 1 at isa? by com_isa on isa port=-1 irq=-1 flags 0
history 2
0.0 found root on mb: mainbus0 row 0
0.0 found mainbus0 on isa: isa0 row 1
0.0 found isa0 on u0: com0 row 2
0.0 found isa0 on u1: com1 row 3
0.0 scan isa0: done
0.0 scan mainbus0: done
0.0 scan root: done
0.0 interrupts
0.0 end
tree
mainbus0 at root row 0
  isa0 at mainbus0 row 1
    com0 at isa0 row 2
    com1 at isa0 row 3
