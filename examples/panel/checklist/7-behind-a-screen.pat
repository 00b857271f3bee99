# Which fields stand on a screen that another screen opens? That the menu does not open it too, a pattern cannot ask.

node market locale
node menu   menu
node front  screen
node behind screen
node field  field

edge market -> menu
edge menu   -> front
edge front  -> behind
edge behind -> field
