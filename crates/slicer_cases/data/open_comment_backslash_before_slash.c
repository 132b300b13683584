x
/* never *\/