--  Each command of the program as a call, from Ada: a binding to ../sdm_calls.h, which says what each call does.
--  docs/FROM-C.md has the duties of the caller, which nothing checks.

with Interfaces;
with Interfaces.C;
with Interfaces.C.Strings;

package SDM_Calls is

   subtype Word is Interfaces.Unsigned_32;

   --  The number of the layout that this binding is written for: compare it with Layout before the first other call.
   Layout_Of_Binding : constant Word := 1;

   --  What a call returns.
   Done        : constant Word := 0;
   Usage       : constant Word := 1;
   Read_Fault  : constant Word := 2;
   Write_Fault : constant Word := 3;
   Too_Long    : constant Word := 4;
   Bad_Data    : constant Word := 5;
   Refused     : constant Word := 6;
   Bad_Event   : constant Word := 7;
   Memory      : constant Word := 8;
   Undrivable  : constant Word := 9;
   Bad_Call    : constant Word := 64;

   --  The line that the program writes, and how many bytes the text has.
   type Line_Bytes is array (Positive range 1 .. 192) of Interfaces.C.char with Convention => C;

   type Ended is record
      Text_Count : Interfaces.Unsigned_64 := 0;
      Line_Count : Word := 0;
      Line       : Line_Bytes := (others => Interfaces.C.nul);
   end record with Convention => C;

   function Layout return Word
     with Import, Convention => C, External_Name => "sdm_calls_layout";

   function Text (Code : Word) return Interfaces.C.Strings.chars_ptr
     with Import, Convention => C, External_Name => "sdm_code_text";

   --  Answers words over an input, with as many bytes of the text as Room has. Between two words stands a zero byte.
   function Command_Into
     (Words       : Interfaces.C.char_array;
      Words_Count : Interfaces.C.size_t;
      Input       : Interfaces.C.char_array;
      Input_Count : Interfaces.C.size_t;
      Room        : in out Interfaces.C.char_array;
      Room_Count  : Interfaces.C.size_t;
      End_Of_Call : in out Ended) return Word
     with Import, Convention => C, External_Name => "sdm_command_into";

private

   for Ended'Size use 1664;

end SDM_Calls;
