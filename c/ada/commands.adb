--  The rows of `run` over standard input, by a call.

with Ada.Command_Line;
with Ada.Streams;
with Ada.Text_IO.Text_Streams;
with Interfaces.C; use Interfaces.C;
with SDM_Calls;    use type SDM_Calls.Word;

procedure Commands is

   Most_Input : constant := 1_048_576;
   Most_Text  : constant := 4_194_304;

   type Memory is access char_array;

   Words : constant char_array := (0 => 'r', 1 => 'u', 2 => 'n');
   Input : constant Memory := new char_array (1 .. Most_Input);
   Room  : constant Memory := new char_array'(1 .. Most_Text => nul);
   Ended : SDM_Calls.Ended;
   Count : size_t := 0;
   Code  : SDM_Calls.Word;

   --  Reads standard input to its end.
   procedure Read_All is
      use Ada.Streams;
      From  : constant Ada.Text_IO.Text_Streams.Stream_Access :=
        Ada.Text_IO.Text_Streams.Stream (Ada.Text_IO.Standard_Input);
      Block : Stream_Element_Array (1 .. 4_096);
      Last  : Stream_Element_Offset;
   begin
      loop
         From.Read (Block, Last);
         exit when Last < Block'First;
         for Element of Block (Block'First .. Last) loop
            Count := Count + 1;
            Input (Count) := char'Val (Element);
         end loop;
      end loop;
   end Read_All;

   --  Writes the first bytes of an array.
   procedure Write (Text : char_array; Bytes : size_t) is
   begin
      for I in Text'First .. Text'First + Bytes - 1 loop
         Character'Write (Ada.Text_IO.Text_Streams.Stream (Ada.Text_IO.Standard_Output), To_Ada (Text (I)));
      end loop;
   end Write;

begin
   if SDM_Calls.Layout /= SDM_Calls.Layout_Of_Binding then
      raise Program_Error with "the library was built for another layout";
   end if;
   Read_All;
   Code := SDM_Calls.Command_Into (Words, Words'Length, Input.all, Count, Room.all, Room'Length, Ended);
   if size_t (Ended.Text_Count) > 0 then
      Write (Room.all, size_t (Ended.Text_Count));
   end if;
   Ada.Command_Line.Set_Exit_Status (Ada.Command_Line.Exit_Status (Code));
end Commands;
