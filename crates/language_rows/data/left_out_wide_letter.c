int c = L'a';
