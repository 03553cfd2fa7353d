--  The library from Ada: opens a supervisor over the data part of an input of the program's `run`, which comes by
--  standard input, and judges the readings of examples/approach. Of each row it writes the time, the traction cut-off,
--  the service brake, the emergency brake and whether it is covered.

with Ada.Strings.Unbounded; use Ada.Strings.Unbounded;
with Ada.Text_IO;           use Ada.Text_IO;
with Interfaces;            use Interfaces;
with SDM;

procedure Approach is
   --  A number without the space that stands before it in Ada.
   function Text (Number : SDM.Word) return String is
      Image : constant String := Number'Image;
   begin
      return Image (Image'First + 1 .. Image'Last);
   end Text;

   Readings : constant array (1 .. 4) of SDM.Reading :=
     (1 => (0, 799_990, 799_990, 799_990, 20_000, 0, 0),
      2 => (5, 800_010, 800_010, 800_010, 20_000, 0, 0),
      3 => (10, 810_000, 810_000, 810_000, 15_000, 0, 0),
      4 => (50, 900_000, 900_000, 900_000, 0, 0, 0));

   H    : SDM.Supervisor;
   Data : Unbounded_String;
   Told : SDM.Line;
   Row  : SDM.Row;
begin
   loop
      declare
         Next : constant String := Get_Line;
      begin
         exit when Next = "%%";
         Append (Data, Next & ASCII.LF);
      end;
   end loop;
   if SDM.Layout /= SDM.Layout_Of_Binding then
      Put_Line ("the library was built for another layout");
      return;
   end if;
   declare
      Part   : aliased constant String := To_String (Data);
      Status : constant SDM.Word       := SDM.Open (H, Part'Address, Part'Length, Told);
   begin
      if Status /= SDM.Done then
         Put_Line (SDM.Text (Status));
         return;
      end if;
   end;
   for Reading of Readings loop
      if SDM.Cycle (H, Reading, Row) /= SDM.Done then
         Put_Line ("refused");
      else
         Put_Line
           (Text (Row.Time_Ds) & "," & Text (Row.Tco) & "," & Text (Row.Sb) & "," & Text (Row.Eb) & "," &
            Text (Row.Covered));
      end if;
   end loop;
   SDM.Close (H);
end Approach;
