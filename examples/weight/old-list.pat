# How the list of the comma rule was made: fields on the screens that the menu opens.

node field  field  value > 0
node sign   format value = 44
node market locale
node menu   menu
node screen screen

edge field  -> sign
edge market -> sign
edge market -> menu
edge menu   -> screen
edge screen -> field
