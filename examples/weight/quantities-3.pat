# Is any quantity worked out from those of quantities-2.pat?

node market   locale   value = 2
node sign     format   value = 44
node field    field
node screen   screen   value = 11
node quantity quantity
node further  quantity
node last     quantity

edge market   -> sign
edge field    -> sign
edge screen   -> field
edge field    -> quantity
edge quantity -> further
edge further  -> last
