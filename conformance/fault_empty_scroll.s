; a scroll without words

