writes the alphabet

>++++++++[<++++++++>-]<+    the first cell is 65: an A
>>+++++[<+++++>-]<+         the second is 26: the letters that are left
[<.+>-]                     write one and go on to the next
++++++++++.                 a line feed
