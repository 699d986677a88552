// Ours, from here on: nothing. What is compared of 003 is public.
