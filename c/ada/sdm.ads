--  The static library from Ada: a binding to ../sdm.h, which says what each call does, its ranges and what it answers.
--  docs/FROM-C.md has the duties of the caller, which nothing checks.

with Interfaces;
with Interfaces.C;
with Interfaces.C.Strings;
with System;

package SDM is

   subtype Word is Interfaces.Unsigned_32;
   subtype Signed_Word is Interfaces.Integer_32;
   subtype Signed_Long is Interfaces.Integer_64;

   --  The number of the layout that this binding is written for: compare it with Layout before the first other call.
   Layout_Of_Binding : constant Word := 2;

   --  The version that this binding is written for, as SDM_VERSION of sdm.h; Version is that of the library.
   Version_Of_Binding : constant Word := 11001;

   --  What a call answers.
   Done           : constant Word := 0;
   Closed         : constant Word := 1;
   In_Use         : constant Word := 2;
   No_Memory      : constant Word := 3;
   Bad_Data       : constant Word := 4;
   Refused        : constant Word := 5;
   Out_Of_Range   : constant Word := 6;
   Time_Back      : constant Word := 7;
   SvL_Before_EOA : constant Word := 8;
   Beyond_Track   : constant Word := 9;
   Bad_Speed      : constant Word := 10;
   Bad_Trip       : constant Word := 11;
   Full           : constant Word := 12;
   Id_In_Use      : constant Word := 13;
   Bad_Places     : constant Word := 14;
   Unknown_Id     : constant Word := 15;
   Not_Fresh      : constant Word := 16;

   --  A supervisor, or none: limited, so that nobody copies it.
   type Supervisor is limited private;

   type Bytes is array (Positive range <>) of Interfaces.Unsigned_8 with Convention => C;

   type Line is record
      Count : Word := 0;
      Text  : Bytes (1 .. 192) := (others => 0);
   end record with Convention => C;

   type Reading is record
      Time_Ds     : Word;
      Est_Mm      : Signed_Word;
      Min_Mm      : Signed_Word;
      Max_Mm      : Signed_Word;
      Speed_Mm_S  : Word;
      Accel_Cm_S2 : Signed_Word;
      Under_Mm_S  : Word;
   end record with Convention => C;

   type Place is record
      Mm      : Signed_Long := 0;
      Is_Some : Word := 0;
   end record with Convention => C;

   --  States: 0 ceiling speed, 1 target speed, 2 release speed monitoring. Statuses: 0 normal, 1 indication,
   --  2 overspeed, 3 warning, 4 intervention. Flags are 0 or 1.
   type Row is record
      Time_Ds, State, Status, Tco, Sb, Eb, Covered, Ceiling_Kmh : Word := 0;
      Ebi, Sbi, Warning, Permitted, Indication                  : Place;
   end record with Convention => C;

   type Restriction is record
      Id, Start_Cm, End_Cm, Speed_Kmh, Is_Delayed : Word;
   end record with Convention => C;

   --  What a train may be beyond its estimate at a reading, and gain after it.
   type Allowance is record
      Front_Mm, Speed_Mm_S, Accel_Cm_S2 : Word;
   end record with Convention => C;

   --  Targets: 0 none, 1 a fall of the speed profile, 2 EOA, 3 SvL, 4 LOA.
   type Display is record
      Time_Ds, Permitted_Kmh, Sbi_Kmh, Ebi_Kmh, Release_Kmh, Target, Target_Kmh : Word := 0;
      Distance_Mm                                                               : Signed_Long := 0;
   end record with Convention => C;

   --  Rules: 0 none, 1 above the ceiling, 2 past a target, 3 past the end of authority, 4 above the release speed,
   --  5 past a limit of the service brake, which isn't in use.
   type Cause is record
      Rule, Target, Target_Kmh : Word := 0;
      Target_Mm, Limit_Mm      : Signed_Long := 0;
   end record with Convention => C;

   --  How a command stands: 0 off, 1 set, 2 held until the permitted speed, 3 until standstill, 4 until either.
   type Causes is record
      Time_Ds, Tco, Sb, Eb   : Word := 0;
      Over, Warn, Serv, Emer : Cause;
   end record with Convention => C;

   function Layout return Word
     with Import, Convention => C, External_Name => "sdm_layout";

   function Version return Word
     with Import, Convention => C, External_Name => "sdm_version";

   --  Data is the address of the first byte; it isn't kept.
   function Open
     (H : in out Supervisor; Data : System.Address; Data_Bytes : Interfaces.C.size_t; Told : in out Line) return Word
     with Import, Convention => C, External_Name => "sdm_open";

   function Cycle (H : in out Supervisor; Read : Reading; Found : in out Row) return Word
     with Import, Convention => C, External_Name => "sdm_cycle";

   function End_Of_Authority (H : in out Supervisor; EOA_Cm, SvL_Cm, Release_Kmh : Word) return Word
     with Import, Convention => C, External_Name => "sdm_end";

   function End_Calculated (H : in out Supervisor; EOA_Cm, SvL_Cm, Trip_Cm : Word) return Word
     with Import, Convention => C, External_Name => "sdm_end_calculated";

   function Limit (H : in out Supervisor; LOA_Cm, Speed_Kmh : Word) return Word
     with Import, Convention => C, External_Name => "sdm_limit";

   function Restrict (H : in out Supervisor; Set : Restriction) return Word
     with Import, Convention => C, External_Name => "sdm_restrict";

   function Revoke (H : in out Supervisor; Id : Word) return Word
     with Import, Convention => C, External_Name => "sdm_revoke";

   function Take_Over (Next : in out Supervisor; Before : Supervisor) return Word
     with Import, Convention => C, External_Name => "sdm_take_over";

   function Show (H : in out Supervisor; Read : Reading; Shown : in out Display) return Word
     with Import, Convention => C, External_Name => "sdm_display";

   function Explain (H : in out Supervisor; Read : Reading; Told : in out Causes) return Word
     with Import, Convention => C, External_Name => "sdm_causes";

   function Would_Cover (H : in out Supervisor; Read : Reading; Is_Covered : in out Word) return Word
     with Import, Convention => C, External_Name => "sdm_would_cover";

   function Would_Cover_Up_To (H : in out Supervisor; Asked : Reading; Is_Covered : in out Word) return Word
     with Import, Convention => C, External_Name => "sdm_would_cover_up_to";

   function Has_Trip_Place
     (H : in out Supervisor; Width_Cm, Excess_Mm_S : Word; Has_Place : in out Word) return Word
     with Import, Convention => C, External_Name => "sdm_has_trip_place";

   function Clear_Of
     (H : in out Supervisor; Read : Reading; Allowed : Allowance; First : in out Place) return Word
     with Import, Convention => C, External_Name => "sdm_clear_of";

   --  The first number of a record that is outside its range: 0 exactly where none is.
   function Field_Of (Read : Reading) return Word
     with Import, Convention => C, External_Name => "sdm_reading_field";

   function Field_Of (Set : Restriction) return Word
     with Import, Convention => C, External_Name => "sdm_restriction_field";

   function Field_Of (Allowed : Allowance) return Word
     with Import, Convention => C, External_Name => "sdm_allowance_field";

   --  What a status, a state, a supervision status, a rule and a field say, for people.
   function Text (Status : Word) return String;
   function State_Text (State : Word) return String;
   function Supervision_Text (Supervision : Word) return String;
   function Rule_Text (Rule : Word) return String;
   function Field_Text (Field : Word) return String;

   procedure Close (H : in out Supervisor)
     with Import, Convention => C, External_Name => "sdm_close";

private

   function Status_Text (Status : Word) return Interfaces.C.Strings.chars_ptr
     with Import, Convention => C, External_Name => "sdm_status_text";

   function C_State_Text (State : Word) return Interfaces.C.Strings.chars_ptr
     with Import, Convention => C, External_Name => "sdm_state_text";

   function C_Supervision_Text (Supervision : Word) return Interfaces.C.Strings.chars_ptr
     with Import, Convention => C, External_Name => "sdm_supervision_text";

   function C_Rule_Text (Rule : Word) return Interfaces.C.Strings.chars_ptr
     with Import, Convention => C, External_Name => "sdm_rule_text";

   function C_Field_Text (Field : Word) return Interfaces.C.Strings.chars_ptr
     with Import, Convention => C, External_Name => "sdm_field_text";

   function Text (Status : Word) return String is (Interfaces.C.Strings.Value (Status_Text (Status)));

   function State_Text (State : Word) return String is (Interfaces.C.Strings.Value (C_State_Text (State)));

   function Supervision_Text (Supervision : Word) return String is
     (Interfaces.C.Strings.Value (C_Supervision_Text (Supervision)));

   function Rule_Text (Rule : Word) return String is (Interfaces.C.Strings.Value (C_Rule_Text (Rule)));

   function Field_Text (Field : Word) return String is (Interfaces.C.Strings.Value (C_Field_Text (Field)));

   type Supervisor is limited record
      At_Address : System.Address := System.Null_Address;
      Is_Open    : Word := 0;
   end record with Convention => C;

   --  The layout of sdm.h, in bits.
   for Supervisor'Size use 128;
   for Line'Size use 1568;
   for Reading'Size use 224;
   for Place'Size use 128;
   for Row'Size use 896;
   for Restriction'Size use 160;
   for Allowance'Size use 96;
   for Display'Size use 320;
   for Cause'Size use 256;
   for Causes'Size use 1152;

end SDM;
