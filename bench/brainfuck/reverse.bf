writes its input from the last byte to the first

>,[>,]                      one byte a cell up to the end which gives 0
<[.<]                       and back to the 0 before the first
