word 1
score 0
tree end("")
cells 1
