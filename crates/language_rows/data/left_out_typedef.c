typedef int word;
