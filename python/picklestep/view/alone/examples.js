'use strict';
// Worked examples: a pickle each, and what there is to say of it where the cursor is, from a place on.

const EXAMPLES = [
  { name: 'A dictionary', hex: '80047d288c046e616d658c05416c6963658c036167654b1e752e', text: [
    [0, 'This pickle makes {\'name\': \'Alice\', \'age\': 30}. A loader goes over the opcodes from top to bottom, and keeps a stack. Press the right arrow.'],
    [1, 'PROTO only says which protocol this is. Nothing is on the stack so far.'],
    [2, 'An empty dictionary is on the stack. It will be filled later.'],
    [3, 'The mark remembers where the keys and values begin.'],
    [4, 'The first key is above the mark.'],
    [5, 'Its value is above the key. From the bottom the stack is: dictionary, mark, key, value.'],
    [6, 'The second key is there too.'],
    [7, 'And its value. The next opcode takes all that is above the mark.'],
    [8, 'SETITEMS took the keys and values and the mark, and set them in the dictionary. It holds them now: look at Objects.'],
    [9, 'STOP took the dictionary. It is what loading gives back: look at Result.'],
  ] },
  { name: 'A class', hex: '80048c05666c6565748c034361729329817d8c0573706565644b6473622e', text: [
    [0, 'This pickle makes an object of the class Car in the module fleet. A pickle holds no code: it names the class, and the loader has to import it.'],
    [3, 'The two names are on the stack, as texts like any other.'],
    [4, 'STACK_GLOBAL took the names. A loader imports fleet here, which runs the module, and takes Car from it. picklestep only says so.'],
    [5, 'The arguments of the class: none.'],
    [6, 'NEWOBJ called Car.__new__ with them. This is code of the module that the pickle chose.'],
    [9, 'The attributes of the object are in a dictionary of their own: the name speed and its value are on the stack.'],
    [10, 'SETITEM put them into the dictionary.'],
    [11, 'BUILD gave the dictionary to the object, by its __setstate__ if the class has one: code again.'],
    [12, 'The result is the object. Two opcodes of this pickle can run code; both have a colour.'],
  ] },
  { name: 'A cycle', hex: '80045d946800612e', text: [
    [0, 'This pickle makes a list that holds itself. How can a file say that?'],
    [2, 'A new empty list is on the stack.'],
    [3, 'MEMOIZE stored it in the memo, under 0. The list is still on the stack.'],
    [4, 'BINGET put the same list on the stack once more. It is one list, seen twice: both have the number #0.'],
    [5, 'APPEND took the upper one and appended it to the lower one: the list to itself.'],
    [6, 'Open #0 in Result: it holds #0, and the page marks the cycle.'],
  ] },
  { name: 'A memo', hex: '80045d288c0568656c6c6f946800652e', text: [
    [0, 'This pickle makes [\'hello\', \'hello\'], but the text is in the file only once.'],
    [4, 'The text is on the stack, above the mark.'],
    [5, 'MEMOIZE stored it in the memo, under 0.'],
    [6, 'BINGET took it from the memo. A loader gives both items the same object.'],
    [7, 'APPENDS put both into the list. They have one number: #1.'],
    [8, 'What is changed by one name is seen by the other: that is why the memo matters for lists and dictionaries.'],
  ] },
  { name: 'A frame', hex: '80049508000000000000008c0464617461942e', text: [
    [0, 'Since protocol 4 a pickle comes in frames, so that a loader can read much at once.'],
    [2, 'FRAME says that the next 8 bytes belong together. It builds nothing: stack, memo and objects are as before.'],
    [3, 'The text within the frame.'],
    [4, 'Edit the text (key e) and give a longer one: picklestep makes the number of the frame fit. Key u takes that back.'],
    [5, 'STOP was in the frame as well. Here the frame ends with the pickle.'],
  ] },
  { name: 'An attack', hex: '63706f7369780a73797374656d0a285802000000696474522e', text: [
    [0, 'A loader of this pickle runs the shell command id. picklestep imports and calls nothing, so you can go over it without danger.'],
    [1, 'GLOBAL named posix.system. A loader imports it here. Any name of any module can stand in a pickle.'],
    [3, 'The command is a text like any other.'],
    [4, 'TUPLE made the arguments of the call out of it.'],
    [5, 'REDUCE calls posix.system(\'id\'): a loader has run the command by now, before anybody looked at the result. Key p goes back to before the call.'],
    [6, 'The result is what system gave back. A check of the loaded object would come too late.'],
  ] },
];
